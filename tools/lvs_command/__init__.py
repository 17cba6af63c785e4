"""The command `lvs`.

main.py has the command line, and judge.py, match.py, sign.py, follow.py, suggest.py, tree.py, show.py and build.py a subcommand each:
`add(commands)` makes its parser, and `run(args)` answers its exit status. parser.py has what they share, and path.py what sign.py and
follow.py do. They ask driver.py, which builds and runs the proved lvs_cases; answers.py puts its lines into words and objects, with the
bindings of match.py and sign.py from bindings.py, and refusals.py has a sentence for each refusal number. model.py reads a model for
display only, and malformed.py one that is none, up to its fault. description.py has a model's description as the two lists of the proved
calls, and text.py as text for people.
"""
