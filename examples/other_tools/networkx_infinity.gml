graph [
  directed 1
  node [
    id 0
    label "Orders"
    graphics [
      x 0.0
      y 0.0
      w 90.0
      h 48.0
    ]
  ]
  node [
    id 1
    label "Stock"
    graphics [
      x 200.0
      y 0.0
      w 90.0
      h 48.0
    ]
    limit +INF
  ]
  node [
    id 2
    label "Invoices"
    graphics [
      x 200.0
      y 120.0
      w 90.0
      h 48.0
    ]
  ]
  edge [
    source 0
    target 1
  ]
  edge [
    source 0
    target 2
  ]
  edge [
    source 1
    target 2
  ]
]
