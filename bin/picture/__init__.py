"""Pictures of traces: a reader of the text, where each thread stood, and three forms to draw it in."""
