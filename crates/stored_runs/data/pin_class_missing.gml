graph [
  node [ id 1 graphics [ x 0 y 0 w 20 h 20 ] pin [ class 1 x 10 y 0 dirs "W" ] pin [ class 7 x 10 y 0 dirs "W" cost 9 ] pin [ class 7 x 10 y 0 dirs "WE" cost 2.5 ] ]
  node [ id 2 graphics [ x -100 y 0 w 20 h 20 ] ]
  edge [ source 1 sourcePin 2 target 2 graphics [ Line [ point [ x 10 y 0 ] point [ x -100 y 0 ] ] ] ]
]
