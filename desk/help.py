"""The help of the program and of each command."""

STATUS = """\
Exit status: 0 ended (or done), 10 fault, 11 out of budget, 12 refused,
1 something was not read or not written, 2 wrong use. A run that a signal
stops ends by that signal.
"""

WHOLE = f"""\
llinosfar replays captures of crashed GPU kernels and keeps their faults' keys.

  llinosfar replay CAPTURE [-o OUT] [-k KEY] [-f] [--budget N] [--json] [--plain]
                               replay a capture and print its report
  llinosfar make KEY.. -o DAY [-f]
                               make a day file from keys
  llinosfar list DAY           list a day file
  llinosfar show CAPTURE       print a capture as readable text
  llinosfar pack TEXT -o CAPTURE [-f]
                               pack a readable text into a capture
  llinosfar build              build every program now, not at its first use
  llinosfar agree              answer the second program's cases
  llinosfar completion bash    print a script that completes words in bash
  llinosfar help [COMMAND]     print this, or a command's help
  llinosfar --version          print the versions of project and toolchain

For CAPTURE, KEY, DAY and TEXT, - is standard input.

{STATUS}
The guide is docs/DESK.md.
"""

COMMANDS = {
    'replay': f"""\
llinosfar replay CAPTURE [-o OUT] [-k KEY] [-f] [--budget N] [--json] [--plain]

Replays a capture and prints its report: fixed lines for scripts, then an
empty line and the same in words.

  -o OUT      write the end state to OUT, as a capture to go on from; a long
              run keeps its state there after each slice of steps
  -k KEY      write a fault's key to KEY
  -f          replace OUT and KEY where they are regular files already; one
              that this run gives nothing for is removed
  --budget N  run at most N steps, in place of the capture's own budget
  --json      print the report as JSON, on one line
  --plain     leave the words out

CAPTURE may be - for standard input. It is never written.

Example:
  llinosfar replay crash.cap -o crash.end -k crash.key

{STATUS}""",
    'make': f"""\
llinosfar make KEY.. -o DAY [-f]

Makes a day file from keys, in the order given: at most 1,024 of them. A file
may have several keys, one after another. Without -o the day file goes to
standard output, but not to a terminal.

  -o DAY      write the day file to DAY
  -f          replace DAY where it is a regular file already

Example:
  llinosfar make keys/*.key -o monday.day

{STATUS}""",
    'list': f"""\
llinosfar list DAY

Lists a day file of up to 65,536 bytes: for each record the first record with
the same key, the kernel, the place, the fault's kinds and the depth.

Example:
  llinosfar list monday.day

{STATUS}""",
    'show': f"""\
llinosfar show CAPTURE

Prints a capture as readable text, by the second program, which is built at
its first use. llinosfar pack gives the capture back.

Example:
  llinosfar show crash.cap > crash.txt

{STATUS}""",
    'pack': f"""\
llinosfar pack TEXT -o CAPTURE [-f]

Packs a readable text into a capture, by the second program, which is built
at its first use. Without -o the capture goes to standard output, but not to
a terminal.

  -o CAPTURE  write the capture to CAPTURE
  -f          replace CAPTURE where it is a regular file already

Example:
  llinosfar pack crash.txt -o crash.cap

{STATUS}""",
    'build': f"""\
llinosfar build

Builds every program that is not built from what is checked out. Otherwise a
program is built at its first use. A line counts the parts.

Example:
  llinosfar build

{STATUS}""",
    'agree': f"""\
llinosfar agree

Answers the second program's cases on standard input, so that the two can be
compared.

Example:
  second/run against new 1000 ./llinosfar agree

{STATUS}""",
    'completion': f"""\
llinosfar completion bash

Prints a script for bash that completes llinosfar's commands, options and
files.

Example:
  source <(llinosfar completion bash)

{STATUS}""",
}
