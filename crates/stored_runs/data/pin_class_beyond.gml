graph [ node [ id 1 graphics [ x 0 y 0 ] pin [ class 65536 x 15 y -15 ] ] ]
