# Instructions and bytes of code of the library beside those of libmodbus and the reference. What it needs, and what the
# figures say, stands in docs/PERFORMANCE.md.
.PHONY: perf

perf: target/staticlib/libpanel.a
	@python3 -B host/perf/perf.py
