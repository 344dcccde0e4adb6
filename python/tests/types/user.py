"""What a user's script is told of the types of results, by mypy; never run."""
import pandas

from homerange import home_range, plot_curve, plot_ranges, read_fixes, read_report, share_inside

ranges = home_range(pandas.DataFrame())
reveal_type(ranges.summary())
reveal_type(ranges.curve())
reveal_type(ranges.overlap())
reveal_type(ranges.polygons(95))
reveal_type(ranges.corners(95))
reveal_type(ranges.hectares("fox"))
reveal_type(ranges.program)
reveal_type(read_fixes("export.csv"))
reveal_type(home_range(read_fixes("export.csv"), by="season"))
reveal_type(read_report("report.txt").growth())
reveal_type(share_inside(ranges, None))
reveal_type(plot_curve(ranges))
reveal_type(plot_ranges(ranges))
reveal_type(plot_curve(ranges, facets=True))
