graph [ node [ id 1 graphics [ x 999985 y 0 ] ] ]
