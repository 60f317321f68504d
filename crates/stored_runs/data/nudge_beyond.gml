graph [ router [ nudge 1000.0005 ] ]
