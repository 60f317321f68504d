Creator "Gephi"
graph
[
  directed 1
  node
  [
    id n0
    label "Orders"
    graphics
    [
      x -120.5
      y 40.25
      z 0.0
      w 30.0
      h 30.0
      d 30.0
      fill "#999999"
    ]
  ]
  node
  [
    id n1
    label "Stock"
    graphics
    [
      x 110.75
      y 62.5
      z 0.0
      w 30.0
      h 30.0
      d 30.0
      fill "#999999"
    ]
  ]
  node
  [
    id n2
    label "Invoices"
    graphics
    [
      x 12.0
      y -99.0
      z 0.0
      w 30.0
      h 30.0
      d 30.0
      fill "#999999"
    ]
  ]
  edge
  [
    id n0
    source n0
    target n1
    value 1.0
    fill "#999999"
  ]
  edge
  [
    id n1
    source n1
    target n2
    value 1.0
    fill "#999999"
  ]
]
