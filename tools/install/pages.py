#!/usr/bin/env python3
"""Makes what is installed beside the program and the library: pages.py PROGRAM PAGES SHARE

    pages for `man`       what `PROGRAM --help` and each `PROGRAM COMMAND --help` say, line by line,
                          in sections; the files of their examples are those below PAGES
    a file for each shell what bash, zsh and fish complete: commands, and the options of each, in
                          the latter two with what they do; other words are names of files
    documents             those below SHARE/doc/exchange, without links to what isn't there, of
                          which the words are left, and with `exchange` for a clone's `./exchange`
"""

import re
import subprocess
import sys
from pathlib import Path

# What roff would take for something else, and how it is told not to.
ESCAPES = {
    "\\": r"\(rs",
    "-": r"\-",
    "'": r"\(aq",
    "`": r"\(ga",
    "^": r"\(ha",
    "~": r"\(ti",
    ".": r"\&.",
}

# What a file says first of itself by which a shell completes.
MADE = (
    "# What {} completes after `exchange`. tools/install/pages.py made this of what `exchange "
    "--help` says."
)


def say(program, *words):
    """What the program says where it is called by its name alone,
    as one is that the shell finds on the PATH."""
    return subprocess.run(
        ["exchange", *words], executable=program, stdout=subprocess.PIPE, check=True
    ).stdout.decode()


def listed(help_text, heading):
    """The lines that stand below a heading of a help, up to an empty one."""
    return re.search(rf"^{heading}:\n((?:.+\n)*)", help_text, re.MULTILINE)[1].splitlines()


def read(program):
    """What the program says of itself, and what it says of each command, by its name."""
    top = say(program, "--help")
    names = [line.split()[0] for line in listed(top, "Commands")]
    return top, {name: say(program, name, "--help") for name in names if name != "help"}


def escaped(text):
    return re.sub(r"[\\\-'`^~.]", lambda it: ESCAPES[it[0]], text)


def at_docs(text, docs):
    """A text whose examples name the files below a folder."""
    return re.sub(r"(?<=\s)examples/", f"{docs}/examples/", text)


def parts_of(help_text):
    """The parts of a help, by the headings that a manual has for them."""
    blocks = help_text.rstrip().split("\n\n")
    used = next(at for at, block in enumerate(blocks) if block.startswith("Usage: "))
    rest = blocks[used + 1 :]
    lists = [it for it in rest if re.match(r"(?:Arguments|Options):\n", it)]
    status = [it for it in rest if it.startswith("Status: ")]
    said = [it for it in rest if it not in [*lists, *status] and not it.startswith("Commands:\n")]
    return blocks[used - 1], {
        "SYNOPSIS": [blocks[used].removeprefix("Usage: ")],
        "DESCRIPTION": said,
        "OPTIONS": lists,
        "EXIT STATUS": status,
        "EXAMPLES": [re.sub(r"^Example:\n", "", it) for it in blocks[: used - 1]],
    }


def page(name, version, about, sections):
    """A page of the manual. Lines stay as they are, from the first column on."""
    head = f'.TH "{escaped(name.upper())}" 1 "" "{escaped(version)}"\n'
    head += f".SH NAME\n{escaped(name)} \\- {escaped(about)}\n"
    return head + "".join(
        f".SH {heading}\n.in 0\n.nf\n{escaped(text)}\n.fi\n"
        for heading, blocks in sections.items()
        if (text := "\n\n".join(blocks))
    )


def manual(version, top, commands, docs):
    """The pages of the manual, by their names: one of the program, and one of each command."""
    abouts = described(top, "Commands")
    about, sections = parts_of(at_docs(top, docs))
    told = [f"exchange-{name}(1)\n    {abouts[name]}" for name in commands]
    files = [f"{docs}/README.md\n    the first page", f"{docs}/examples\n    the examples' files"]
    order = ("SYNOPSIS", "DESCRIPTION", "COMMANDS", "OPTIONS", "FILES", "EXIT STATUS", "EXAMPLES")
    sections.update({"COMMANDS": told, "FILES": files})
    sections = {heading: sections[heading] for heading in order}
    sections["SEE ALSO"] = [", ".join(f"exchange-{name}(1)" for name in commands)]
    yield "exchange", page("exchange", version, about, sections)
    for name, text in commands.items():
        about, sections = parts_of(at_docs(text, docs))
        sections["SEE ALSO"] = ["exchange(1)"]
        yield f"exchange-{name}", page(f"exchange-{name}", version, about, sections)


def described(help_text, heading):
    """What a help says of each command or option, by its name."""
    form = r" +(?:-\w, )?(--[\w-]+|\w+)(?: <[^>]+>)? +(.*)"
    found = (re.match(form, line) for line in listed(help_text, heading))
    return dict(it.groups() for it in found if it)


def words_of(top, commands):
    """What may stand after the program's name and after `help`, and the options of each command by
    its name, each with what it does."""
    names = described(top, "Commands")
    helped = {name: names[name] for name in commands}
    options = {name: described(text, "Options") for name, text in commands.items()}
    return {**names, **described(top, "Options")}, helped, options


def bash(first, helped, commands):
    cases = "".join(
        f"    2:{name}) words='{' '.join(words)}' ;;\n"
        for name, words in [*commands.items(), ("help", helped)]
    )
    return f"""\
{MADE.format("bash")}
_exchange() {{
    local words=
    case $((COMP_CWORD > 1 ? 2 : 1)):${{COMP_WORDS[1]}} in
    1:*) words='{" ".join(first)}' ;;
{cases}\
    esac
    COMPREPLY=()
    if [[ $COMP_CWORD -eq 1 || ${{COMP_WORDS[1]}} == help || $2 == -* ]]; then
        mapfile -t COMPREPLY < <(compgen -W "$words" -- "$2")
    fi
}}
complete -o bashdefault -o default -F _exchange exchange
"""


def quoted(text, quote):
    """A text between apostrophes, where `quote` stands for one within."""
    return "'" + text.replace("'", quote) + "'"


def zsh(first, helped, commands):
    def known(words):
        return " ".join(quoted(f"{word}:{told}", "'\\''") for word, told in words.items())

    cases = "".join(
        f"2:{name}) known=({known(words)}) ;;\n"
        for name, words in [*commands.items(), ("help", helped)]
    )
    return f"""\
#compdef exchange
{MADE.format("zsh")}
local -a known
case $((CURRENT > 2 ? 2 : 1)):$words[2] in
1:*) known=({known(first)}) ;;
{cases}\
esac
if [[ $CURRENT -eq 2 || $words[2] == help || $PREFIX == -* ]]; then
    _describe exchange known
else
    _files
fi
"""


def fish(first, helped, commands):
    after = "complete -c exchange -n 'contains -- {} (commandline -opc)[2]'"
    alone = "complete -c exchange -n 'test (count (commandline -opc)) = 1'"

    def lines(head, words):
        for word, told in words.items():
            kind = f"-l {word[2:]}" if word[:2] == "--" else f"-f -a {word}"
            yield "{} {} -d {}\n".format(head, kind, quoted(told, "\\'"))

    parts = [(alone, first), (after.format("help"), helped)]
    parts += [(after.format(name), words) for name, words in commands.items()]
    return MADE.format("fish") + "\n" + "".join("".join(lines(*part)) for part in parts)


def unlinked(page):
    """The text of a document without links to what isn't there."""

    def kept(link):
        is_there = "://" in link[2] or (page.parent / link[2].partition("#")[0]).exists()
        return link[0] if is_there else link[1]

    # What is shown between two lines of marks has no links.
    parts = re.split(r"(?ms)(^```.*?^```$)", page.read_text(encoding="utf-8"))
    return "".join(
        part if k % 2 else re.sub(r"\[([^\]]+)\]\(([^)\s]+)\)", kept, part)
        for k, part in enumerate(parts)
    )


def as_installed(path):
    """The text of a document or a help that is installed. What only a clone has stays."""
    text = unlinked(path) if path.suffix == ".md" else path.read_text(encoding="utf-8")
    cloned = r"\./(?=exchange)(?!exchange (?:prove|install|uninstall|plan FILE)\b)"
    return text if path.name == "CONTRIBUTING.md" else re.sub(cloned, "", text)


def main(program, pages, share):
    top, commands = read(program)
    words = words_of(top, commands)
    version = say(program, "--version").strip()
    made = {f"man/man1/{name}.1": text for name, text in manual(version, top, commands, pages)}
    made.update({
        "bash-completion/completions/exchange": bash(*words),
        "zsh/site-functions/_exchange": zsh(*words),
        "fish/vendor_completions.d/exchange.fish": fish(*words),
    })  # fmt: skip
    docs = Path(share, "doc/exchange")
    for it in [*docs.rglob("*.md"), *docs.glob("rows/help/*.txt")]:
        made[str(it)] = as_installed(it)
    for name, text in made.items():
        path = Path(share, name)
        path.parent.mkdir(parents=True, exist_ok=True)
        path.write_text(text, encoding="utf-8")


if __name__ == "__main__":
    main(*sys.argv[1:])
