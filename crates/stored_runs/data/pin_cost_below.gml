graph [ node [ id 1 graphics [ x 0 y 0 ] pin [ class 1 x 0 y 0 cost -0.001 ] ] ]
