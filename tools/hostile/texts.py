#!/usr/bin/env python3
"""Spoilt texts: what the program answers to them, and what the plain implementation does.

    texts.py [COUNT]        COUNT texts of each kind, 2500 where it isn't said; of patterns for
                            several workers, of schedules for `switch` and `run`, of wirings and of
                            scripts for `talk` a quarter, of scripts side by side a twentieth

Text number n of a kind is the same each time. So classes.txt has the numbers of those whose class
of answer is rare, which are tried too, and how many classes there are. A plan isn't the only one of
its batch, so `plan` is judged by what a plan is, or a steady one, and `switch` by the plan that
`plan` gives; all other answers are compared byte by byte. Of a pattern several workers have to give
the plan of one, byte by byte. In a quarter of the runs one of the files is standard input, and a
tenth of the files have odd names. The line on standard error beside a refusal is compared byte by
byte too, with what notes.py tells. What it says is wanted in a line is then put there: the texts
have to be refused otherwise, or told of otherwise. In a tenth of the runs `--quiet` leaves that
line out.
"""

import multiprocessing
import os
import random
import re
import shutil
import sys
from collections import namedtuple
from pathlib import Path

import mend
import notes
import orders
import picture
import plain
import records
import sessions
import spoil
import steady
import switching
from program import ROOMS, TOP, ask

sys.path.append(f"{TOP}/examples")
import check_prices
import harness
from harness import Report

# How many texts of each kind are tried where it isn't said.
COUNT = 2500

SCRIPTS = 16

# Options that stand before a file.
OPTIONS = ("--image", "--schedule", "--wiring")

# The most bytes that a word of the command line has here. The system has another limit,
# a little above.
MOST_OF_A_WORD = 130000


def keep(name, text):
    with open(name, "wb") as file:
        file.write(text)
    return name


# What came of a run: as `Ended`, with the file that was standard input, whether nothing was to be
# told beside a refusal, and the names that the files were given.
Answer = namedtuple("Answer", "out err status given is_quiet names")


def ask_of(draw, words, files):
    """Runs the program with these words and then these files, one of which may be standard input,
    and some of which have an odd name; and with some number of workers, if it is a command that has
    them."""
    is_alone = (
        words[0] in ("check", "draw", "direct", "replay")
        or "--steady" in words
        or "--schedule" in files
    )
    workers = [] if is_alone else workers_of(draw)
    given = (
        draw.choice([it for it in files if it not in OPTIONS])
        if draw.random() < 0.25
        else os.devnull
    )
    quiet = ["--quiet"] if draw.random() < 0.1 else []
    names = {
        file: odd_name(draw, file) if draw.random() < 0.1 else file
        for file in files
        if file not in OPTIONS
    }
    ended = ask(
        *words,
        *("-" if file == given else names.get(file, file) for file in files),
        *workers,
        *quiet,
        given=given,
    )
    return Answer(*ended, given, bool(quiet), names)


def odd_name(draw, file):
    """Another name by which the file can be read,
    with characters that are mostly escaped where they are told."""
    name = spoil.name(draw, file)
    shutil.copyfile(file, name)
    return name


def named(answer, file, text):
    """A text and the name that is told of its file; no name where there is no text."""
    if text is None:
        return "", b""
    return ("standard input" if file == answer.given else notes.shown(answer.names[file])), text


def is_well_told(answer, asked, line, answer_to):
    """Whether the line beside an answer is the one that belongs there, and says what is wanted:
    with that the answer is another, or what is told. `answer_to` gives the answer to what is
    asked."""
    wanted = notes.told(asked, line) if line.startswith(b"refused ") else b""
    if answer.err != (b"" if answer.is_quiet else wanted):
        return False
    again = mend.mended(asked, line) if wanted else None
    return again is None or answer_to(again) != line or notes.told(again, line) != wanted


def image_option(draw, shape, files):
    """For a quarter of the runs an image, and its words:
    the file is one of those of the command."""
    if draw.random() < 0.75:
        return None, []
    files.append(keep("image", spoil.image(draw, shape)))
    with open("image", "rb") as file:
        return file.read(), ["--image"]


def is_refusal(answer, line):
    return answer.out == line and answer.status == 1


def is_answer(answer, line):
    return answer.out == line and answer.status == int(line.startswith(b"refused "))


def workers_of(draw):
    return draw.choice([[], [], ["--workers", "2"], ["--workers", "3"], ["--workers", "64"]])


def steadiness_of(draw):
    return ["--steady"] if draw.random() < 0.3 else []


def is_planned(options, text, answer):
    """Whether `plan` may answer so with these options."""
    return (steady.is_steady if options else plain.is_plan)(text, answer)


def is_batch_told(answer, text, refusal):
    asked = notes.Asked("batch", named(answer, "batch", text))
    return is_well_told(answer, asked, refusal, lambda it: plain.answer_plan(it.list[1]))


def is_overlap_told(answer, text):
    """Whether two transfers that write one block are told beside the plan
    or the bytes of a batch, and nothing else is."""
    return answer.err == (
        b""
        if answer.is_quiet
        else notes.overlapping(notes.Asked("batch", named(answer, "batch", text)))
    )


def try_plan(draw):
    """A spoilt batch text, put to `plan`."""
    text, options = (
        spoil.spoil(draw, spoil.batch(draw, plain.WIDEST, draw.choice([3, 10, 40]))),
        steadiness_of(draw),
    )
    answer = ask_of(draw, ["plan", *options], [keep("batch", text)])
    refusal = plain.answer_plan(text)
    if refusal:
        return (
            is_refusal(answer, refusal) and is_batch_told(answer, text, refusal),
            refusal,
            [text],
            answer,
        )
    well = (
        answer.status == 0
        and is_overlap_told(answer, text)
        and is_planned(options, text, answer.out)
    )
    return well, b"a steady plan" if options else b"a plan", [text], answer


def try_steady(draw):
    """A batch of a pattern, planned steadily. In a tenth of the cases the bytes of that plan are
    wanted as well, by the batch alone and by the plan's text, and in another tenth its picture,
    which tells how often it changes the switch."""
    name, text = spoil.patterned(draw)
    plan, chance = ask_of(draw, ["plan", "--steady"], [keep("batch", text)]), draw.random()
    well = plan.status == 0 and is_overlap_told(plan, text) and steady.is_steady(text, plan.out)
    if chance < 0.2:
        keep("schedule", plan.out)
    if well and chance < 0.1:
        answers = [
            ask("switch", "batch", "--steady"),
            ask("switch", "batch", "--schedule", "schedule"),
        ]
        told = notes.overlapping(notes.Asked("batch", ("batch", text)))
        well = all(it == (answers[0].out, told, 0) for it in answers) and switching.is_switched(
            text, plan.out, answers[0].out
        )
    elif well and chance < 0.2:
        drawn = ask("draw", "batch", "schedule", "--quiet")
        well = drawn == (picture.answer_draw(text, plan.out, told=drawn.out), b"", 0)
    return well, f"a steady plan of {name}".encode(), [text, plan.out], plan


def try_pattern(draw):
    """A pattern, planned by one worker and by several: the plans have to be the same,
    byte by byte."""
    text = spoil.pattern(draw)
    keep("batch", text)
    alone, several = (
        ask("plan", "batch", "--workers", str(workers))
        for workers in (1, draw.choice([2, 3, 4, 7, 16, 64]))
    )
    well = alone.status == 0 and alone == several and plain.is_plan(text, alone.out)
    return well, b"a plan", [text, several.out], alone


def try_switch(draw):
    """A batch text, put to `switch`, which is spoilt in half of the cases. Few modules have many
    settings, and pairs that stay from one to the next."""
    shape = (draw.choice([1, 2, 3, 8, 16, 17, plain.MODULES]), plain.BLOCKS, plain.WORDS)
    text = spoil.batch(draw, shape, draw.choice([3, 10, 40, 120]))
    if draw.random() < 0.5:
        text = spoil.spoil(draw, text)
    options = steadiness_of(draw)
    answer = ask_of(draw, ["switch", *options], [keep("batch", text)])
    refusal = plain.answer_plan(text)
    if refusal:
        return (
            is_refusal(answer, refusal) and is_batch_told(answer, text, refusal),
            refusal,
            [text],
            answer,
        )
    plan = ask_of(draw, ["plan", *options], ["batch"]).out
    well = (
        answer.status == 0
        and is_overlap_told(answer, text)
        and is_planned(options, text, plan)
        and switching.is_switched(text, plan, answer.out)
    )
    return well, kind_of_bytes(answer.out), [text, plan], answer


def kind_of_bytes(answer):
    """How many switches and settings bytes are for, in words."""
    settings = len({line.split(b" ")[1] for line in answer.splitlines()})
    switches = "two switches" if answer.startswith(b"setting 0 a ") else "one switch"
    return (
        f"bytes of {switches}, "
        f"{('no setting', 'one setting', 'several settings')[min(settings, 2)]}"
    ).encode()


def try_run(draw):
    """A spoilt batch text, put to `run` with a shape that the batch fits, or fitted. A steady plan
    changes the switch as often as the one that `plan` gives."""
    shape = spoil.shape(draw)
    text = spoil.spoil(draw, spoil.batch(draw, shape, draw.choice([3, 10, 20])))
    if draw.random() < 0.1:
        shape = spoil.shape(draw)
    words = "{}x{}x{}".format(*shape)
    files = [keep("batch", text)]
    image, option = image_option(draw, shape, files)
    options = steadiness_of(draw)
    answer = ask_of(draw, ["run", words, *options], [files[0], *option, *files[1:]])
    run_by = steady.scheduled(ask("plan", "batch", "--steady").out) if options else plain.planned
    wanted = plain.answer_run(words.encode(), text, image, run_by)
    asked = notes.Asked(
        "batch", named(answer, "batch", text), named(answer, "image", image), words.encode()
    )
    told = is_well_told(
        answer, asked, wanted, lambda it: plain.answer_run(it.shape, it.list[1], image, run_by)
    )
    return is_answer(answer, wanted) and told, wanted, [words.encode(), text, image], answer


def try_apply(draw):
    """An image, and a batch text, spoilt in half of the cases, put to `apply`."""
    shape = spoil.shape(draw)
    text = spoil.batch(draw, shape, draw.choice([3, 10, 40]))
    if draw.random() < 0.5:
        text = spoil.spoil(draw, text)
    image = spoil.image(draw, shape)
    words = "{}x{}x{}".format(*shape)
    answer = ask_of(draw, ["apply", words], [keep("batch", text), keep("image", image)])
    wanted, status = plain.answer_apply(words.encode(), text, image)
    asked = notes.Asked(
        "batch", named(answer, "batch", text), named(answer, "image", image), words.encode()
    )
    told = is_well_told(
        answer,
        asked,
        wanted if status else b"",
        lambda it: plain.answer_apply(it.shape, it.list[1], image)[0],
    )
    well = answer.out == wanted and answer.status == status and told
    return well, wanted if status else b"an image", [words.encode(), text, image], answer


def try_direct(draw):
    """A text of moves, spoilt in half of the cases, put to `direct`."""
    text = spoil.moves(
        draw, draw.choice([1, 2, 3, 8, plain.MODULES]), draw.choice([3, 10, 40, 120])
    )
    if draw.random() < 0.5:
        text = spoil.spoil(draw, text)
    answer = ask_of(draw, ["direct"], [keep("moves", text)])
    refusal = plain.refusal_of_moves(text)
    if refusal:
        asked = notes.Asked("moves", named(answer, "moves", text))
        told = is_well_told(answer, asked, refusal, lambda it: plain.refusal_of_moves(it.list[1]))
        return is_refusal(answer, refusal) and told, refusal, [text], answer
    well = answer.status == 0 and answer.err == b"" and plain.is_directed(text, answer.out)
    return well, b"a batch", [text], answer


def spoilt_schedule(draw, shape, most, certify):
    """The texts of a good batch and of a spoilt schedule of it, whose certificate is made of the
    transfers. Now and then the batch is spoilt too."""
    batch = spoil.batch(draw, shape, most)
    transfers = plain.read_batch(batch, plain.WIDEST)
    certificate = certify(transfers) if transfers else (None, [])
    settings, certificate = spoil.schedule(draw, transfers, certificate)
    while draw.random() < 0.5:
        settings, certificate = spoil.bend(draw, settings, certificate, len(transfers))
    text = spoil.schedule_text(settings, certificate if draw.random() < 0.97 else None)
    if draw.random() < 0.5:
        text = spoil.spoil(draw, text)
    if draw.random() < 0.05:
        batch = spoil.spoil(draw, batch)
    return batch, text


def try_check(draw):
    """A spoilt schedule text, put to `check`."""
    batch, text = spoilt_schedule(draw, plain.WIDEST, draw.choice([0, 3, 10, 30]), plain.busiest)
    answer = ask_of(draw, ["check"], [keep("batch", batch), keep("schedule", text)])
    wanted = plain.answer_check(batch, text)
    asked = notes.Asked(
        "batch",
        named(answer, "batch", batch),
        named(answer, "schedule", text),
        **known_of(batch, text),
    )
    told = is_well_told(
        answer, asked, wanted, lambda it: plain.answer_check(it.list[1], it.other[1])
    )
    return is_answer(answer, wanted) and told, wanted, [batch, text], answer


def known_of(batch, schedule):
    """What is known of a schedule, where both texts can be read."""
    try:
        transfers = plain.read_batch(batch, plain.WIDEST)
        settings, _ = plain.read_schedule(schedule)
    except plain.Refused:
        return {}
    try:
        plain.check_settings(transfers, settings)
    except plain.Refused:
        return {"valid": False}
    return {"valid": True, "enough": len(plain.busiest(transfers)[1])}


def try_draw(draw):
    """A spoilt schedule text, put to `draw`, whose certificate names any of the busiest links. Few
    modules have many settings. In half of the cases some settings alone are wanted, by a text that
    is spoilt now and then."""
    shape = (draw.choice([1, 2, 3, 8, plain.MODULES]), plain.BLOCKS, plain.WORDS)
    batch, text = spoilt_schedule(
        draw, shape, draw.choice([3, 10, 40, 120]), lambda it: draw.choice(plain.busiest_links(it))
    )
    files = [keep("batch", batch), keep("schedule", text)]
    settings = range_text(draw, text.count(b"\nsetting"))
    if settings is None:
        answer = ask_of(draw, ["draw"], files)
    else:
        answer = ask_of(draw, ["draw", "--settings=" + os.fsdecode(settings)], files)
    wanted = picture.answer_draw(batch, text, settings, answer.out)
    asked = notes.Asked(
        "batch",
        named(answer, "batch", batch),
        named(answer, "schedule", text),
        range=settings or b"",
    )
    told = is_well_told(
        answer, asked, wanted, lambda it: picture.answer_draw(it.list[1], it.other[1], settings)
    )
    well = is_answer(answer, wanted) and told and (draw.random() > 0.1 or are_priced())
    return well, wanted, [batch, text, settings or b""], answer


def are_priced():
    """Whether `draw --prices` refuses what `draw` refuses. Else its prices show as many changes as
    its first line says. These are as many as the picture's title says, where the schedule has the
    fewest settings, and else none."""
    drawn, priced = (ask("draw", "batch", "schedule", *it) for it in ([], ["--prices"]))
    if drawn.status:
        return priced == drawn
    with open("batch") as batch, open("schedule") as schedule:
        texts = [
            [line.split() for line in it.splitlines()]
            for it in (batch.read(), schedule.read(), priced.out.decode())
        ]
    try:
        check_prices.judged(*texts)
    except SystemExit:
        return False
    title = re.search(
        rb"settings (\d+)(, the fewest)?.*, changes (\d+), (?:the fewest|at least (\d+))", drawn.out
    )
    wanted = int(title[4] or title[3]) if title[2] and texts[0][0] != ["batch", "0"] else 0
    return (priced.err, priced.status, int(texts[2][0][3])) == (b"", 0, wanted)


def try_switch_by(draw):
    """A spoilt schedule text, put to `switch`. Its certificate is no matter."""
    shape = (draw.choice([1, 2, 3, 8, 16, 17, plain.MODULES]), plain.BLOCKS, plain.WORDS)
    batch, text = spoilt_schedule(draw, shape, draw.choice([3, 10, 40, 120]), plain.busiest)
    answer = ask_of(draw, ["switch"], [keep("batch", batch), "--schedule", keep("schedule", text)])
    wanted = switching.answer_switch(batch, text)
    asked = notes.Asked("batch", named(answer, "batch", batch), named(answer, "schedule", text))
    if wanted.startswith(b"refused "):
        told = is_well_told(
            answer, asked, wanted, lambda it: switching.answer_switch(it.list[1], it.other[1])
        )
    else:
        told = is_overlap_told(answer, batch)
    is_told = wanted.startswith(b"refused ")
    well = (
        is_answer(answer, wanted)
        and told
        and (is_told or switching.is_switched(batch, text, wanted))
    )
    return well, wanted if is_told else kind_of_bytes(wanted), [batch, text], answer


def try_run_by(draw):
    """A spoilt schedule text, put to `run` with a shape that the batch fits.
    Its certificate is no matter."""
    shape = spoil.shape(draw)
    batch, text = spoilt_schedule(draw, shape, draw.choice([3, 10, 20]), plain.busiest)
    words = "{}x{}x{}".format(*shape)
    files = [keep("batch", batch), "--schedule", keep("schedule", text)]
    image, option = image_option(draw, shape, files)
    answer = ask_of(draw, ["run", words], [*files[:3], *option, *files[3:]])
    wanted = plain.answer_run(words.encode(), batch, image, steady.scheduled(text))
    is_image = wanted.startswith(b"refused image ")
    other = named(answer, "image", image) if is_image else named(answer, "schedule", text)
    asked = notes.Asked("batch", named(answer, "batch", batch), other, words.encode())
    told = is_well_told(
        answer,
        asked,
        wanted,
        lambda it: plain.answer_run(
            it.shape, it.list[1], image, steady.scheduled(text if is_image else it.other[1])
        ),
    )
    return is_answer(answer, wanted) and told, wanted, [words.encode(), batch, text, image], answer


def try_orders(draw):
    """A batch, and how its schedule is made: the plan, a steady one, or any schedule in a text; put
    to `orders`, in some cases for one module. Few blocks are read and written often. Modules that
    obey what all are told have to move all blocks. A text is spoilt now and then.
    """
    shape = (
        draw.choice([1, 2, 3, 5, 16, plain.MODULES]),
        draw.choice([1, 2, 4, plain.BLOCKS]),
        plain.WORDS,
    )
    batch = spoil.batch(draw, shape, draw.choice([3, 10, 40]))
    settings = spoil.loose_schedule(draw, plain.read_batch(batch, plain.WIDEST))
    text = spoil.schedule_text(settings, None)
    if draw.random() < 0.1:
        text = spoil.spoil(draw, text)
    if draw.random() < 0.1:
        batch = spoil.spoil(draw, batch)
    files, options = [keep("batch", batch)], steadiness_of(draw)
    if not options and draw.random() < 0.5:
        files += ["--schedule", keep("schedule", text)]
    elif not plain.answer_plan(batch):
        text = ask("plan", "batch", *options).out
    only = draw.randrange(shape[0]) if draw.random() < 0.3 else None
    module = [] if only is None else ["--module", str(only)]
    answer = ask_of(draw, ["orders", *options, *module], files)
    wanted = orders.answer_orders(batch, text, only)
    asked = notes.Asked(
        "batch",
        named(answer, "batch", batch),
        named(answer, "schedule", text) if files[1:] else ("", text),
    )
    told = is_well_told(
        answer, asked, wanted, lambda it: orders.answer_orders(it.list[1], it.other[1], only)
    )
    if wanted.startswith(b"refused "):
        return is_refusal(answer, wanted) and told, wanted, [batch, text], answer
    well = (
        is_answer(answer, wanted)
        and told
        and (only is not None or orders.is_obeyed(draw, batch, text, answer.out))
    )
    return well, kind_of_orders(wanted, only, files[1:]), [batch, text], answer


def kind_of_orders(answer, only, is_given):
    """Whom orders are for, and of a schedule that is given whether a block is copied, in words."""
    copies = "with copies" if b"copy block " in answer else "without copies"
    return (
        f"orders of {'all modules' if only is None else 'one module'}, "
        f"{copies if is_given else 'by a plan'}"
    ).encode()


def try_wiring(draw):
    """A board's wiring, spoilt in half of the cases, put to `switch`. The batch fits the board
    mostly. Its schedule is a plan, or in half of the cases one that is spoilt."""
    board = spoil.wiring(draw)
    modules = max(plain.read_wiring(board)) + draw.choice([1, 1, 1, 1, 1, 2])
    batch, schedule = spoilt_schedule(
        draw, (modules, plain.BLOCKS, plain.WORDS), draw.choice([3, 10, 40]), plain.busiest
    )
    if draw.random() < 0.5:
        board = spoil.spoil(draw, board)
    files = [keep("batch", batch), "--wiring", keep("board", board)]
    if draw.random() < 0.5:
        answer = ask_of(draw, ["switch"], [*files, "--schedule", keep("schedule", schedule)])
        refusal = switching.answer_switch(batch, schedule, board)
        refusal = refusal if refusal.startswith(b"refused ") else None
    else:
        options = steadiness_of(draw)
        answer, refusal = ask_of(draw, ["switch", *options], files), switching.refusal(batch, board)
        schedule = None if refusal else ask("plan", *options, "batch").out
    if refusal:
        return (
            is_answer(answer, refusal) and is_wiring_told(answer, batch, schedule, board, refusal),
            refusal,
            [batch, schedule, board],
            answer,
        )
    well = (
        is_answer(answer, answer.out)
        and is_overlap_told(answer, batch)
        and switching.is_switched(batch, schedule, answer.out, board)
    )
    return well, kind_of_bytes(answer.out), [batch, schedule, board], answer


def is_wiring_told(answer, batch, schedule, board, refusal):
    """Whether the line beside a refusal is the one that belongs there, where a wiring is given."""
    asked = notes.Asked(
        "batch", named(answer, "batch", batch), wiring=named(answer, "board", board)
    )
    if schedule is None:
        return is_well_told(
            answer, asked, refusal, lambda it: switching.refusal(it.list[1], it.wiring[1])
        )
    asked = asked._replace(other=named(answer, "schedule", schedule))
    return is_well_told(
        answer,
        asked,
        refusal,
        lambda it: switching.answer_switch(it.list[1], it.other[1], it.wiring[1]),
    )


def range_text(draw, count):
    """For half of the runs the text of a range of about so many settings."""
    if draw.random() < 0.5:
        return None
    first = draw.randint(0, count)
    text = b"%d..%d" % (first, draw.randint(first, max(first, count)))
    if draw.random() < 0.2:
        text = spoil.spoil(draw, text)
    return b"0..0" if is_no_text(text) else text


def is_no_text(text):
    """Whether a word of the command line can't be this text."""
    try:
        return b"\0" in text or len(text) > MOST_OF_A_WORD or not text.decode()
    except UnicodeDecodeError:
        return True


def try_shape(draw):
    """A spoilt shape text, put to `run` with a good batch."""
    shape = spoil.shape(draw)
    batch = spoil.batch(draw, (shape[0], min(shape[1], 6), 1), 5)
    text = spoil.spoil(draw, b"%dx%dx%d" % shape).replace(b"\0", b"")[:MOST_OF_A_WORD]
    answer = ask_of(draw, ["run", os.fsdecode(text)], [keep("batch", batch)])
    if is_no_word(text):
        well = answer.status == 2 and answer.out == b"" and answer.err != b""
        return well, b"no word for a shape", [text, batch], answer
    wanted = plain.answer_run(text, batch)
    asked = notes.Asked("batch", named(answer, "batch", batch), shape=text)
    told = is_well_told(answer, asked, wanted, lambda it: plain.answer_run(it.shape, it.list[1]))
    return is_answer(answer, wanted) and told, wanted, [text, batch], answer


def is_no_word(text):
    """Whether a word of the command line can't be a shape text: clap takes it for an option,
    or it isn't UTF-8."""
    try:
        text.decode()
    except UnicodeDecodeError:
        return True
    return len(text) > 1 and text.startswith(b"-")


def is_served(answer, wanted, status, asked):
    return (
        answer.out == wanted
        and answer.status == status
        and is_well_told(answer, asked, wanted, lambda it: b"")
    )


def last_line(text):
    return text[text[:-1].rfind(b"\n") + 1 :]


def try_script(draw):
    """A spoilt script, put to `serve`. A few make more calls than a history holds,
    or submit more batches than a book."""
    shape = spoil.shape(draw)
    text = spoil.spoil(draw, spoil.script(draw, shape, draw.choice([5, 15, 30]), range(5)))
    chance = draw.random()
    if chance < 0.0003:
        text = b"peek 0 80000800\n" * 65530 + text + b"batch 0\nplan 1\n" * 8
    elif chance < 0.003:
        text = b"batch 0\n" * 250 + text + b"batch 0\n" * 8
    words = "{}x{}x{}".format(*shape)
    files = [keep("script", text)]
    image, option = image_option(draw, shape, files)
    answer = ask_of(draw, ["serve", words], [files[0], *option, *files[1:]])
    wanted, status = sessions.answer_serve(words.encode(), [text], image)
    asked = notes.Asked("batch", other=named(answer, "image", image), shape=words.encode())
    return (
        is_served(answer, wanted, status, asked),
        last_line(wanted),
        [words.encode(), text, image],
        answer,
    )


def try_talk(draw):
    """A spoilt script, put to `talk`, which tells a line beside each that it refuses. A few submit
    more batches than a book holds."""
    shape = spoil.shape(draw)
    text = spoil.spoil(draw, spoil.script(draw, shape, draw.choice([5, 15, 30]), range(5)))
    if draw.random() < 0.003:
        text = b"batch 0\n" * 250 + text + b"batch 0\n" * 8
    words, quiet = "{}x{}x{}".format(*shape), ["--quiet"] if draw.random() < 0.1 else []
    answer = ask("talk", words, *quiet, given=keep("script", text))
    wanted, status, refused = sessions.answer_talk(words.encode(), text)
    told = [
        notes.told(notes.Asked("batch", ("", sent), shape=words.encode()), refusal)
        for refusal, sent in refused
    ]
    well = answer == (wanted, b"" if quiet else b"".join(told), status)
    return well, refused[-1][0] if refused else b"no refusal", [words.encode(), text], answer


def try_scripts(draw):
    """Sixteen scripts side by side whose replies don't depend on the order of the sessions:
    each has a module of its own."""
    shape = (draw.randint(SCRIPTS, plain.MODULES), draw.randint(2, 4), draw.randint(1, 4))
    modules = draw.sample(range(shape[0]), SCRIPTS)
    leader = draw.choice(modules)
    scripts = [spoil.own_script(draw, shape, module, module == leader) for module in modules]
    words = "{}x{}x{}".format(*shape)
    answer = ask_of(
        draw,
        ["serve", words],
        [keep(f"script{number}", text) for number, text in enumerate(scripts)],
    )
    wanted, status = sessions.answer_serve(words.encode(), scripts)
    asked = notes.Asked("batch", shape=words.encode())
    return (
        is_served(answer, wanted, status, asked),
        last_line(wanted),
        [words.encode(), *scripts],
        answer,
    )


def try_record(draw):
    """A spoilt record, put to `replay`."""
    shape = (draw.randint(1, 4), draw.randint(1, 4), draw.randint(1, 3))
    text = records.spoilt(
        draw, shape, records.made(draw, shape, draw.randint(1, 3), draw.randint(1, 40))
    )
    answer = ask_of(draw, ["replay"], [keep("record", text)])
    wanted, told, status = records.answer_replay(text, named(answer, "record", text)[0])
    well = (answer.out, answer.err, answer.status) == (
        wanted,
        b"" if answer.is_quiet else told,
        status,
    )
    return well, b"an image" if status == 0 else wanted, [text], answer


KINDS = {
    "batches to plan": try_plan,
    "patterns to plan": try_pattern,
    "patterns to plan steadily": try_steady,
    "batches to switch": try_switch,
    "schedules to switch by": try_switch_by,
    "wirings to switch by": try_wiring,
    "batches to order modules by": try_orders,
    "batches to run": try_run,
    "schedules to run by": try_run_by,
    "images to apply a batch to": try_apply,
    "moves to direct": try_direct,
    "schedules to check": try_check,
    "schedules to draw": try_draw,
    "shapes to run": try_shape,
    "scripts to serve": try_script,
    "scripts to talk": try_talk,
    "sixteen scripts side by side": try_scripts,
    "records to replay": try_record,
}


def class_of(wanted):
    """The kind of an answer: its words without its numbers and its words of memory, or for a
    picture how often its labels come."""
    if wanted.startswith(b"<svg "):
        panels = max(wanted.count(b">module %d</text>" % module) for module in range(plain.MODULES))
        return "a picture of " + ("nothing", "one panel", "several panels")[min(panels, 2)]
    words = wanted.split(b"\n")[0].decode().split()
    return " ".join(word for word in words if not re.fullmatch("[0-9]+|[0-9a-f]{8}", word))


def try_some(share):
    """Tries texts of a kind by their numbers: what was compared, and the classes of the answers."""
    kind, numbers = share
    report, classes = Report("texts", is_silent=True), set()
    with harness.room("texts", enter=True, where=ROOMS):
        for number in numbers:
            well, wanted, texts, answer = KINDS[kind](random.Random(f"{kind} {number}"))
            classes.add(class_of(wanted))
            problems = [] if well else [str(texts), f"wanted {wanted}", f"got {answer}"]
            report.judge(f"{kind}, number {number}", problems, kind)
    return kind, classes, report


def rare_texts():
    """Of each kind how many classes of answers there are, and the texts of rare ones."""
    lines = Path(__file__).with_name("classes.txt").read_text(encoding="utf-8").splitlines()
    fields = [line.split(": ") for line in lines if not line.startswith("#")]
    return {kind: [int(number) for number in numbers.split()] for kind, numbers in fields}


def main():
    count = int(sys.argv[1]) if len(sys.argv) > 1 else COUNT
    parts = {
        try_pattern: 4, try_switch_by: 4, try_run_by: 4, try_wiring: 4, try_talk: 4,
        try_scripts: 20,
    }  # fmt: skip
    report, rare, shares = Report("texts"), rare_texts(), []
    for kind, try_it in KINDS.items():
        most = count // parts.get(try_it, 1)
        numbers = [*range(most), *(number for number in rare[kind][1:] if number >= most)]
        shares += [(kind, numbers[at : at + 250]) for at in range(0, len(numbers), 250)]
    classes = {kind: set() for kind in KINDS}
    with multiprocessing.Pool(len(os.sched_getaffinity(0))) as pool:
        for kind, found, own in pool.imap_unordered(try_some, shares):
            classes[kind] |= found
            report.add(own)
    if count >= COUNT:
        for kind, found in classes.items():
            report.check(f"classes of {kind}", len(found), rare[kind][0], "kinds of all classes")
    report.finish()


if __name__ == "__main__":
    main()
