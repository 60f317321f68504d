graph [
  node [
    id 1
    label "Shopper"
    name "shopper"
    graphics [
      x 469.000
      y 18.000
      w 74.563
      h 36.000
      type "ellipse"
      fill "#f1f5f9"
      outline "#3b6ea5"
      style "rounded,filled"
    ]
  ]
  node [
    id 2
    label "API gateway"
    name "gateway"
    graphics [
      x 330.000
      y 104.000
      w 85.003
      h 36.000
      type "box"
      fill "#dbeafe"
      outline "#3b6ea5"
      style "rounded,filled"
    ]
  ]
  node [
    id 3
    label "Sign-in"
    name "auth"
    graphics [
      x 506.000
      y 181.000
      w 54.000
      h 36.000
      type "box"
      fill "#dbeafe"
      outline "#3b6ea5"
      style "rounded,filled"
    ]
  ]
  node [
    id 4
    label "Catalogue"
    name "catalog"
    graphics [
      x 171.000
      y 430.000
      w 72.000
      h 36.000
      type "box"
      fill "#dbeafe"
      outline "#3b6ea5"
      style "rounded,filled"
    ]
  ]
  node [
    id 5
    label "Cart"
    name "cart"
    graphics [
      x 160.000
      y 181.000
      w 54.000
      h 36.000
      type "box"
      fill "#dbeafe"
      outline "#3b6ea5"
      style "rounded,filled"
    ]
  ]
  node [
    id 6
    label "Orders"
    name "orders"
    graphics [
      x 330.000
      y 181.000
      w 54.000
      h 36.000
      type "box"
      fill "#dbeafe"
      outline "#3b6ea5"
      style "rounded,filled"
    ]
  ]
  node [
    id 7
    label "Payments"
    name "payment"
    graphics [
      x 257.000
      y 267.000
      w 71.000
      h 36.000
      type "box"
      fill "#dbeafe"
      outline "#3b6ea5"
      style "rounded,filled"
    ]
  ]
  node [
    id 8
    label "Stock"
    name "stock"
    graphics [
      x 162.000
      y 267.000
      w 54.000
      h 36.000
      type "box"
      fill "#dbeafe"
      outline "#3b6ea5"
      style "rounded,filled"
    ]
  ]
  node [
    id 9
    label "Notifications"
    name "mail"
    graphics [
      x 418.000
      y 430.000
      w 85.997
      h 36.000
      type "box"
      fill "#dbeafe"
      outline "#3b6ea5"
      style "rounded,filled"
    ]
  ]
  node [
    id 10
    label "Events"
    name "events"
    graphics [
      x 356.000
      y 344.000
      w 95.220
      h 36.000
      type "parallelogram"
      fill "#dcfce7"
      outline "#3f7d4f"
      style "rounded,filled"
    ]
  ]
  node [
    id 11
    label "Bank"
    name "bank"
    graphics [
      x 249.000
      y 344.000
      w 54.000
      h 36.000
      type "ellipse"
      fill "#fee2e2"
      outline "#a34a4a"
      style "rounded,filled"
    ]
  ]
  node [
    id 12
    label "users"
    graphics [
      x 560.000
      y 267.000
      w 54.000
      h 36.000
      type "cylinder"
      fill "#fef3c7"
      outline "#9a7b2d"
      style "rounded,filled"
    ]
  ]
  node [
    id 13
    label "search"
    graphics [
      x 171.000
      y 507.000
      w 54.000
      h 36.000
      type "cylinder"
      fill "#fef3c7"
      outline "#9a7b2d"
      style "rounded,filled"
    ]
  ]
  node [
    id 14
    label "carts"
    graphics [
      x 76.000
      y 267.000
      w 54.000
      h 36.000
      type "cylinder"
      fill "#fef3c7"
      outline "#9a7b2d"
      style "rounded,filled"
    ]
  ]
  node [
    id 15
    label "sales"
    graphics [
      x 474.000
      y 267.000
      w 54.000
      h 36.000
      type "cylinder"
      fill "#fef3c7"
      outline "#9a7b2d"
      style "rounded,filled"
    ]
  ]
  node [
    id 16
    label "items"
    graphics [
      x 162.000
      y 344.000
      w 54.000
      h 36.000
      type "cylinder"
      fill "#fef3c7"
      outline "#9a7b2d"
      style "rounded,filled"
    ]
  ]
  edge [
    source 1
    target 2
    label "HTTPS"
  ]
  edge [
    source 2
    target 3
  ]
  edge [
    source 2
    target 4
  ]
  edge [
    source 2
    target 5
  ]
  edge [
    source 2
    target 6
  ]
  edge [
    source 3
    target 12
  ]
  edge [
    source 4
    target 13
  ]
  edge [
    source 5
    target 8
    label "reserve"
  ]
  edge [
    source 5
    target 14
  ]
  edge [
    source 6
    target 7
    label "charge"
  ]
  edge [
    source 6
    target 8
    label "commit"
  ]
  edge [
    source 6
    target 10
    label "order placed"
  ]
  edge [
    source 6
    target 15
  ]
  edge [
    source 7
    target 10
  ]
  edge [
    source 7
    target 11
    graphics [
      sourceArrow "normal"
      targetArrow "normal"
    ]
  ]
  edge [
    source 8
    target 10
  ]
  edge [
    source 8
    target 16
  ]
  edge [
    source 9
    target 1
    label "e-mail"
    graphics [
      style "dashed"
    ]
  ]
  edge [
    source 10
    target 4
    label "refresh"
    graphics [
      style "dashed"
    ]
  ]
  edge [
    source 10
    target 9
  ]
]
