"""What `dev/fuzz` and `dev/schedules` are made of.

texts     random commands of the text form, as `put`, and other spellings of a line
commands  random commands that are mostly well formed, with small numbers, so that things meet
pictures  random scripts of pictures that come again
scripts   random scripts of several kinds, made of them
mutating  scripts and models with random faults put in
models    random texts of models
orders    orders of the sessions of a script, and texts that are none
calls     random scripts with the words of a command line and the files of a folder
reducing  a text, and a call, made smaller while something stays true of it
outcomes  the runs of calls, compared with the program
tables    models, compared with a program that runs rows
schedules scripts of eight sessions, run again and again under load, and replayed
"""
