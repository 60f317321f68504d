graph [
  router [ buffer 1000 ]
  node [ id 1 isGroup 1 graphics [ x 0 y 0 w 2000000 h 2000000 ] ]
  node [ id 2 graphics [ x 0 y 5000 w 20 h 20 ] ]
  edge [ source 1 target 2 ]
]
