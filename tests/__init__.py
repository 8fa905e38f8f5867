"""The tests from outside: plain Python over the built programs, with real files and pipes.

python3 -m unittest tests.test_filter runs one file, from the top of the repository; python3 -m tests runs all.
"""
