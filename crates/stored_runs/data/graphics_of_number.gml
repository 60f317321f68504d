graph [ node [ id 1 graphics 5 graphics [ x 0 y 0 ] ] ]
