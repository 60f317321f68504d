graph [ node [ id 1 graphics [ x 0.5 y 0 ] ] ]
