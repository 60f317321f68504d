graph [
  node [ id 1 graphics [ x 0 y 0 w 20 h 20 ] ]
  node [ id 2 graphics [ x 100 y 0 w 20 h 20 ] ]
  node [ id 3 graphics [ x 100 y -30 w 80 h 20 ] ]
  node [ id 4 graphics [ x 100 y 30 w 80 h 20 ] ]
  node [ id 5 graphics [ x 70 y 0 w 20 h 60 ] ]
  node [ id 6 graphics [ x 130 y 0 w 20 h 60 ] ]
  edge [ source 1 target 2 ]
]
