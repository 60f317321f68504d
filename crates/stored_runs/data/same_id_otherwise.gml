graph [ node [ id 1 graphics [ x 0 y 0 ] ] node [ id +01 ] ]
