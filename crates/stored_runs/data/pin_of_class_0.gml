graph [ node [ id 1 graphics [ x 0 y 0 ] pin [ class 0 x 0 y 0 ] ] ]
