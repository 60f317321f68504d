graph [ node [ id 1 graphics [ x 0 y 0 ] pin [ class 0000000000000000000000065535 x 15 y -15 dirs "WS" cost 1E6 ] ] ]
