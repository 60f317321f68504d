graph [ node [ id 1 graphics [ x 0 y 0 ] ] node [ id 2 graphics [ x 100 y 0 w 20 h 20 ] ] edge [ source 1 target 2 targetPin -0 via 3 ] ]
