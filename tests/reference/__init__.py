"""A reference for both ends of the input channel: the session host's and the panel's.

It follows the rules paper and [MS-RDPEI] 3.1 sentence by sentence and favours
being read over being fast. Test corpora are made with it.
"""
