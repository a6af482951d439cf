"""A model of the 486 cache and bus unit, one module per chapter of document 01. Of document 02's
requests C-11 has `diagnostics`, C-12 `carried`, C-16 `block_table` and C-17 `ranges`; C-14's flush
stands in `directory`, C-15's sizes in `bus`.

It is written from the rules alone, so that what another implementation does can be
compared with it. Quoted sentences are document 01's unless a request is named.
"""
