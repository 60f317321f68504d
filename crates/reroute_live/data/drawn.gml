Creator "an editor"
graph [
  directed 1
  node [
    id 1
    label "A"
    graphics [
      x 0
      y 0
      w 20
      h 20
      fill "#FFCC00"
    ]
  ]
  node [
    id 2
    graphics [
      x 100
      y 0
      w 20
      h 20
    ]
  ]
  edge [
    source 1
    target 2
  ]
]
