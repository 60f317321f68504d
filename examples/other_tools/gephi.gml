Creator "Gephi"
graph
[
  directed 1
  node
  [
    id 0
    label "Orders"
    graphics
    [
      x -120.5
      y 40.25
      z 0.0
      w 30.0
      h 30.0
      d 30.0
      fill "#999999"
    ]
  ]
  node
  [
    id 1
    label "Stock"
    graphics
    [
      x 110.75
      y 62.5
      z 0.0
      w 30.0
      h 30.0
      d 30.0
      fill "#999999"
    ]
  ]
  node
  [
    id 2
    label "Invoices"
    graphics
    [
      x 12.0
      y -99.0
      z 0.0
      w 30.0
      h 30.0
      d 30.0
      fill "#999999"
    ]
  ]
  edge
  [
    id 0
    source 0
    target 1
    value 1.0
    fill "#999999"
  ]
  edge
  [
    id 1
    source 1
    target 2
    value 1.0
    fill "#999999"
  ]
]
