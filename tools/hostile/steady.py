"""How often a schedule changes the switch, counted a second time, and steady plans, judged by that.

This is plain Python, as plain.py, that shares no code with the product. A change is a setting whose
pairs of links aren't those of the setting before, and so is the first setting. Partners of a link
are those that it shares transfers with.
"""

import re
from collections import Counter

import plain


def pairs_of(transfers):
    """The pairs of modules that transfers join, each an initiator and a responder."""
    return {(transfer[1], transfer[3]) for transfer in transfers}


def links_of(pairs):
    """The links that pairs use."""
    return {(0, m) for m, _ in pairs} | {(3, n) for _, n in pairs}


def joined(transfers, settings):
    """The pairs of each setting."""
    return [pairs_of(transfers[t] for t in setting) for setting in settings]


def changes(transfers, settings):
    """How often the switch changes over a schedule."""
    pairs = joined(transfers, settings)
    return sum(now != before for before, now in zip([None, *pairs], pairs))


def scheduled(text):
    """What tells of transfers how many settings their schedule in a text has, and in a line how
    often that changes the switch."""

    def run_by(transfers):
        settings, _ = plain.read_schedule(text)
        plain.check_settings(transfers, settings)
        return len(settings), [f"changes {changes(transfers, settings)}"]

    return run_by


def most_partners(transfers):
    """How many partners a link has at most. No schedule changes the switch less often."""
    partners = Counter(link for pair in pairs_of(transfers) for link in links_of([pair]))
    return max(partners.values(), default=0)


def equal_prices_show(transfers, settings):
    """How many changes prices show of each schedule with so many settings that are the same for
    each link in use, and for each length of a step: what the program begins with. Some link has a
    transfer in each setting. So no step is longer than the most that it has with a partner. A pair
    costs both of its links the price for each step that its transfers take at least, and each link
    pays it for each step that its idle settings take at least."""
    pairs = Counter((transfer[1], transfer[3]) for transfer in transfers)
    counts = {
        link: [count for pair, count in pairs.items() if link in links_of([pair])]
        for link in links_of(pairs)
    }
    longest = min(max(each) for each in counts.values() if sum(each) == settings)
    steps = sum(
        -(-number // longest)
        for each in counts.values()
        for number in [*each, settings - sum(each)]
    )
    return -(-steps * (65536 // len(counts)) // 65536)


def bound_words(transfers, settings, told=b""):
    """What the title of a picture says of the changes of a schedule: that none has fewer, or none
    with so few settings, or how many at least. How many the best prices show isn't found here. It
    is read in the answer that was told, and is no less than how many partners a link has, or equal
    prices show, and no more than the changes."""
    count, partners = changes(transfers, settings), most_partners(transfers)
    if count == partners:
        return f"changes {count}, the fewest"
    fewest = len(plain.busiest(transfers)[1]) if transfers else 0
    found = re.search(rb"<title>.*, changes \d+, at least (\d+)", told)
    least = partners
    if len(settings) == fewest:
        told_least = int(found[1]) if found else count
        least = min(count, max(partners, equal_prices_show(transfers, fewest), told_least))
    return (
        f"changes {count}, the fewest with so few settings"
        if count == least
        else f"changes {count}, at least {least}"
    )


def most_changes(transfers):
    """How many changes a steady plan has at most: one for each pair of links in use,
    and one for each link in use."""
    pairs = pairs_of(transfers)
    return len(pairs) + len(links_of(pairs))


def are_needed(transfers, settings):
    """Whether the switch changes behind a setting only where something is over with that: it joins
    a pair that no later setting joins, or it leaves a link free that each later setting uses."""
    pairs, later, always = joined(transfers, settings), set(), set(plain.all_links())
    for now, behind in reversed(list(zip(pairs, pairs[1:]))):
        later |= behind
        always &= links_of(behind)
        if now != behind and now <= later and always <= links_of(now):
            return False
    return True


def is_steady(batch, answer):
    """Whether the answer is a steady plan of the batch text: a schedule with as many settings as
    the busiest link has transfers, and the certificate that names that link and all of these. No
    setting is empty, and numbers ascend in each. It changes the switch only at need, no more often
    than a steady plan may, and no less often than it has to."""
    transfers = plain.read_batch(batch, plain.WIDEST)
    try:
        settings, certificate = plain.read_schedule(answer)
        plain.check_settings(transfers, settings)
    except plain.Refused:
        return False
    link, named = plain.busiest(transfers) if transfers else (None, [])
    is_shortest = certificate == (link, named) and len(settings) == len(named)
    ascending = all(setting and setting == sorted(setting) for setting in settings)
    few = most_partners(transfers) <= changes(transfers, settings) <= most_changes(transfers)
    return is_shortest and ascending and few and are_needed(transfers, settings)
