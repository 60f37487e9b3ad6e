"""The head end of a DVB-T2 network, from the rules alone: whole lists, and each definition as it is written down."""
