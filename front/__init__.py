"""The front end for people: job files in, reports out. Every figure is the line program's."""
