"""What came of matches: `handref match` over the logs of dealers.

`played` reads what `convert` writes of a log, `sums` adds up the chips of each agent, `pairs` finds
the hands of duplicate matches, `student` has the quantile of intervals, `table` writes rows and text,
`page` a page, and `match` puts them together.
"""
