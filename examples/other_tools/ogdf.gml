Creator "ogdf::GraphIO::writeGML"
graph [
  directed 1
  node [
    id 0
    template "oreas:std:rect"
    label "Orders"
    graphics [
      x 0.0000000000
      y 0.0000000000
      w 90.0000000000
      h 48.0000000000
      fill "#FFFFFF"
      line "#000000"
      lineWidth 1.000000
      type "rectangle"
    ]
  ]
  node [
    id 1
    label "Stock"
    graphics [
      x 200.0000000000
      y 0.0000000000
      w 90.0000000000
      h 48.0000000000
      fill "#FFFFFF"
      type "rectangle"
    ]
  ]
  node [
    id 2
    label "Invoices"
    graphics [
      x 200.0000000000
      y 120.0000000000
      w 90.0000000000
      h 48.0000000000
      fill "#FFFFFF"
      type "rectangle"
    ]
  ]
  edge [
    source 0
    target 1
    generalization 0
    graphics [
      type "line"
      arrow "last"
      stipple "1"
      lineWidth 1.000000
      Line [
        point [ x 0.0000000000 y 0.0000000000 ]
        point [ x 200.0000000000 y 0.0000000000 ]
      ]
      fill "#000000"
    ]
  ]
  edge [
    source 1
    target 2
    graphics [
      type "line"
      arrow "last"
    ]
  ]
  edge [
    source 0
    target 2
    graphics [
      type "line"
      arrow "last"
    ]
  ]
]
