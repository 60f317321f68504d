Creator "igraph version 0.10.2 Sun Nov 29 00:16:01 2026"
Version 1
graph
[
  directed 1
  node
  [
    id 0
    label "Orders"
    x 0
    y 0
  ]
  node
  [
    id 1
    label "Stock"
    x 200
    y 0
  ]
  node
  [
    id 2
    label "Invoices"
    x 200
    y 120
  ]
  edge
  [
    source 0
    target 1
  ]
  edge
  [
    source 1
    target 2
  ]
  edge
  [
    source 0
    target 2
  ]
]
