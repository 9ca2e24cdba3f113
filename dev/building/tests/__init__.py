"""The tests of ./broker and dev/build, with a stand-in for rt: in which order crates are built, what is told of them,
builds that fail, are stopped or killed, builds beside each other, and the kinds of folders and commands that a build
finds. Nothing is proved, and no program is needed.
"""
