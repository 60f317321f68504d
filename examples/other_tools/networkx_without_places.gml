graph [
  directed 1
  node [
    id 0
    label "Orders"
  ]
  node [
    id 1
    label "Stock"
  ]
  node [
    id 2
    label "Invoices"
  ]
  edge [
    source 0
    target 1
  ]
  edge [
    source 0
    target 2
  ]
  edge [
    source 1
    target 2
  ]
]
