"""What the tools, the tests and the benches share.

  records         the one reader of transcripts and of what `hags status` answers
  comparing       whether what the daemons of one cluster wrote agrees
  settings        settings by the rules of a daemon, and what to write in place of a bad line
  playing         scripts through the program, and which records each line caused
  explanations    sentences for refusals and bad lines
  daemons         daemons on this machine, at loopback addresses
  programs        the word --program of every tool
  chart, painting, svg    pictures of runs
  rooms           what each file of the repository is
  packets, random_scripts, failing    packets by hand, scripts by a seed, calls of the C library that fail
"""
