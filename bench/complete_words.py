#!/usr/bin/env python3
"""Types command lines into a real bash and a real zsh, and looks at what the completions of ravenhost make of them. The
files are found as the shells find them in a folder of an installation; bench/manual.sh makes one.

    bench/complete_words.py PREFIX LAUNCHER

Below PREFIX stand bin/ravenhost, which is no script, and the completions; LAUNCHER is a script ./ravenhost. Ends with 1
where a line isn't as due. Needs bash with Debian's bash-completion, and zsh.
"""
import os
import pty
import select
import signal
import sys
import tempfile
import time

LIMIT = 20  # the longest that a shell may take for a line, in seconds

# $COMPLETION is Debian's bash-completion, which finds the file by itself, or the file alone.
BASH = """\
PS1='> '
. "$COMPLETION"
bind 'set bell-style none' 2>/dev/null
bind '"\\C-t": insert-completions' 2>/dev/null
told() { printf '%s\\n' "$READLINE_LINE" >"$TOLD.part"; mv "$TOLD.part" "$TOLD"; READLINE_LINE=; }
bind -x '"\\C-g": told' 2>/dev/null
"""

ZSH = """\
PS1='> '
unsetopt beep
bindkey -e
fpath=($SITE $fpath)
autoload -Uz compinit && compinit -u -D
zle -C all complete-word _generic
zstyle ':completion:all:*' completer _all_matches _complete
zstyle ':completion:all:*' insert yes
bindkey '^T' all
told() { print -r -- "$BUFFER" >$TOLD.part; mv $TOLD.part $TOLD; BUFFER= }
zle -N told
bindkey '^G' told
"""

ONE, ALL = "\t", "\x14"

# What is typed, the key, and the line that is due; the words that ALL inserts are sorted before they are compared.
ROWS = [
    ("{} pl", ONE, "{} play "),
    ("{} play --a", ONE, "{} play --all "),
    ("{} check --e", ONE, "{} check --explain "),
    ("{} check --sc", ONE, "{} check --script "),
    ("{} audit --t", ONE, "{} audit --torn "),
    ("{} audit --torn --j", ONE, "{} audit --torn --journal"),
    ("{} audit --journal x", ONE, "{} audit --journal x-one.journal "),
    ("{} audit --journal=x", ONE, "{} audit --journal=x-one.journal "),
    ("{} audit --journal two\\ w", ONE, "{} audit --journal two\\ words.journal "),
    ("{} audit --journal y", ONE, "{} audit --journal y-folder/"),
    ("{} audit --journal y-folder/", ONE, "{} audit --journal y-folder/inner.journal "),
    ("{} audit --journal ~/x", ONE, "{} audit --journal ~/x-one.journal "),
    ("{} play < z", ONE, "{} play < z.raven "),
    ("{} play <z", ONE, "{} play <z.raven "),
    ("{} play >>z", ONE, "{} play >>z.raven "),
    ("{} play 2>z", ONE, "{} play 2>z.raven "),
    ("{} < z.raven pl", ONE, "{} < z.raven play "),
    ("{} play z", ONE, "{} play z.raven "),
    ("{} check --script z", ONE, "{} check --script z.raven "),
    ("{} run --tick 100 z", ONE, "{} run --tick 100 z.raven "),
    ("{} audit --journal x-one.journal z", ONE, "{} audit --journal x-one.journal z.raven "),
    ("{} audit z.raven --t", ONE, "{} audit z.raven --torn "),
    ("{} play z.raven z", ONE, "{} play z.raven z"),
    ("{} manual ", ALL, "{} manual audit check manual play run"),
    ("{} manual ru", ONE, "{} manual run "),
    ("{} manual --", ONE, "{} manual --help "),
    ("{} help ", ALL, "{} help audit check manual play run"),
    ("{} help ru", ONE, "{} help run "),
    ("{} help run ", ALL, "{} help run "),
    ("{} --help ", ALL, "{} --help "),
    ("{} nonsense --", ALL, "{} nonsense --"),
]
OF_PROGRAM = [
    ("{} ", ALL, "{} audit check help manual play run"),
    ("{} play --", ALL, "{} play --all --color --explain --help --no-explain --notes --warnings-are-errors "),
    ("{} play --all --", ALL, "{} play --all --color --explain --no-explain --notes --warnings-are-errors "),
    ("{} check --", ALL, "{} check --color --explain --help --no-explain --notes --script --warnings-are-errors "),
    ("{} play --un", ONE, "{} play --un"),
    ("{} refusals --s", ONE, "{} refusals --s"),
    ("{} send z", ONE, "{} send z"),
    ("{} --", ALL, "{} --help --version"),
    ("{} -", ALL, "{} --help --version -V -h"),
    ("{} run --", ALL, "{} run --actor --color --console --end-status --explain --grace --halt-below --help --journal --keep-units --lasting --no-explain --notes --operator-room --quota --rotate --sections-end --stop-by --sync --tick --times --warnings-are-errors "),
    ("{} --in", ONE, "{} --in"),
    ("{} audit --", ALL, "{} audit --color --explain --help --journal --notes --quota --torn"),
    ("{} audit --journal x-one.journal --", ALL, "{} audit --journal x-one.journal --color --explain --notes --quota --torn"),
]
OF_LAUNCHER = [
    ("{} ", ALL, "{} access audit check explain export help hits manual new play refusals run send state timeline waits whatif who"),
    ("{} whatif z", ONE, "{} whatif z.raven "),
    ("{} access --against z", ONE, "{} access --against z.raven "),
    ("{} play --", ALL, "{} play --all --color --explain --help --host --list --no-explain --notes --shape --unit --warnings-are-errors "),
    ("{} play --all --", ALL, "{} play --all --color --explain --host --list --no-explain --notes --shape --unit --warnings-are-errors "),
    ("{} check --un", ONE, "{} check --unit "),
    ("{} check --unit z", ONE, "{} check --unit z.raven "),
    ("{} check --unit z.raven --un", ONE, "{} check --unit z.raven --unit "),
    ("{} check --list=z", ONE, "{} check --list=z.raven "),
    ("{} check --host z.raven z", ONE, "{} check --host z.raven z.raven "),
    ("{} refusals --s", ALL, "{} refusals --script --shape --since "),
    ("{} refusals --t", ALL, "{} refusals --times --torn "),
    ("{} refusals --times x", ONE, "{} refusals --times x-one.journal "),
    ("{} refusals --journal x", ONE, "{} refusals --journal x-one.journal "),
    ("{} waits --script z", ONE, "{} waits --script z.raven "),
    ("{} access --b", ONE, "{} access --by "),
    ("{} who --scr", ONE, "{} who --script "),
    ("{} se", ONE, "{} send "),
    ("{} new y", ONE, "{} new y-folder/"),
    ("{} send z", ONE, "{} send z.raven "),
    ("{} send x-one.journal ", ALL, "{} send x-one.journal append halt journal load quit raise remove replace tick"),
    ("{} send x-one.journal lo", ONE, "{} send x-one.journal load "),
    ("{} send x-one.journal load z", ONE, "{} send x-one.journal load z.raven "),
    ("{} send x-one.journal tick z", ONE, "{} send x-one.journal tick z"),
    ("{} --", ALL, "{} --help --install --prove --version"),
    ("{} run --", ALL, "{} run --actor --color --console --end-status --explain --grace --halt-below --help --host --journal --keep-units --lasting --list --no-explain --notes --operator-room --quota --rotate --sections-end --shape --stop-by --sync --tick --times --trial --unit --warnings-are-errors "),
    ("{} --pr", ONE, "{} --prove "),
    ("{} --install y", ONE, "{} --install y-folder/"),
    ("{} --install x", ONE, "{} --install x"),
    ("{} --prove ", ALL, "{} --prove "),
    ("{} audit --", ALL, "{} audit --color --explain --help --host --journal --list --notes --quota --script --shape --torn --unit"),
    ("{} audit --journal x-one.journal --", ALL, "{} audit --journal x-one.journal --color --explain --host --list --notes --quota --script --shape --torn --unit"),
]


class Shell:
    """A shell at a terminal of its own."""

    def __init__(self, name, words, folder, prefix, **more):
        self.name, self.told = name, os.path.join(folder, f"told-{name}")
        environment = {"HOME": os.path.join(folder, "home"), "TERM": "dumb", "LC_ALL": "C.UTF-8", "COLUMNS": "200",
                       "PATH": os.path.join(prefix, "bin") + ":" + os.environ["PATH"], "TOLD": self.told, **more}
        self.process, self.terminal = pty.fork()
        if not self.process:
            os.chdir(os.path.join(folder, "home"))
            os.execvpe(words[0], words, environment)
        self.line("", "")

    def drain(self):
        while select.select([self.terminal], [], [], 0)[0]:
            try:
                if not os.read(self.terminal, 65536):
                    return
            except OSError:
                return

    def line(self, typed, key):
        """The line that a key makes of what is typed."""
        if os.path.exists(self.told):
            os.remove(self.told)
        os.write(self.terminal, (typed + key + "\x07").encode())
        end = time.monotonic() + LIMIT
        while time.monotonic() < end:
            self.drain()
            if os.path.exists(self.told):
                with open(self.told, encoding="utf-8") as file:
                    return file.read()[:-1]
            time.sleep(0.01)
        sys.exit(f"{self.name} gave no line for {typed!r}")

    def end(self):
        os.kill(self.process, signal.SIGKILL)
        os.waitpid(self.process, 0)


def sorted_behind(typed, line):
    """A line whose inserted words are sorted: bash puts them in their own order, zsh in that of its groups."""
    front = typed[:typed.rindex(" ") + 1]
    return front + " ".join(sorted(word.rstrip("=") for word in line[len(front):].split()))


def faults_of(shell, command, rows):
    faults = 0
    for typed, key, due in rows:
        typed, due = typed.replace("{}", command), due.replace("{}", command)
        line = shell.line(typed, key)
        as_told = line
        if key == ALL:
            line, due = sorted_behind(typed, line), sorted_behind(typed, due)
        elif typed.endswith("--j"):
            line = line.rstrip("= ")
        elif line.endswith("="):  # (zsh puts it behind a flag that takes a value)
            line = line[:-1] + " "
        if line != due:
            faults += 1
            print(f"NOT AS DUE: {shell.name}: {typed!r} gave {as_told!r}, due {due!r}")
    print(f"{shell.name}, {command}: {len(rows)} lines, {faults} not as due")
    return faults


def main():
    prefix, launcher = (os.path.abspath(word) for word in sys.argv[1:])
    faults = 0
    with tempfile.TemporaryDirectory() as folder:
        home = os.path.join(folder, "home")
        os.makedirs(os.path.join(home, "y-folder"))
        for name in ("x-one.journal", "two words.journal", "y-folder/inner.journal", "z.raven"):
            with open(os.path.join(home, name), "w", encoding="utf-8"):
                pass
        os.symlink(launcher, os.path.join(home, "ravenhost"))
        with open(os.path.join(folder, "bashrc"), "w", encoding="utf-8") as file:
            file.write(BASH)
        with open(os.path.join(home, ".zshrc"), "w", encoding="utf-8") as file:
            file.write(ZSH)
        share = os.path.join(prefix, "share")
        bash = ["bash", "--noprofile", "--rcfile", os.path.join(folder, "bashrc"), "-i"]
        shells = [Shell("bash", bash, folder, prefix, XDG_DATA_DIRS=share, COMPLETION="/usr/share/bash-completion/bash_completion"),
                  Shell("bash alone", bash, folder, prefix,
                        COMPLETION=os.path.join(share, "bash-completion/completions/ravenhost")),
                  Shell("zsh", ["zsh", "-d", "-i"], folder, prefix, SITE=os.path.join(share, "zsh/site-functions"))]
        for shell in shells:
            faults += faults_of(shell, "ravenhost", ROWS + OF_PROGRAM)
            for command in ("./ravenhost", "~/ravenhost", launcher):
                faults += faults_of(shell, command, ROWS + OF_LAUNCHER)
            shell.end()
    return 1 if faults else 0


if __name__ == "__main__":
    sys.exit(main())
