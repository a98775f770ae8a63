"""Pictures of schedules and traces: what `mltx-picture` draws.

`events` reads the texts, `scene` says what is to be seen at which point of time, `layout` gives points their places,
and `draw` writes the SVG with its `legend`. `page` makes a page to step through, of the lanes and of what `states` has
asked the `program`. `rooms` draws the rooms of the crates for tools/crate-map, and `plot` what bench/run measures."""
