graph [ node [ id 1 graphics [ x 999985.0005 y 0 ] ] ]
