graph [
  version 2
  directed 1
  bb "0,0,264,268"
  node [
    id 0
    name "orders"
    label "Orders"
    graphics [
      x 166.5
      y 250
      w 66.0002
      H 36
      type "box"
    ]
    LabelGraphics [
      text "Orders"
    ]
  ]
  node [
    id 1
    name "payment"
    label "Payment"
    graphics [
      x 39.5
      y 141
      w 78.9984
      H 36
      type "box"
    ]
    LabelGraphics [
      text "Payment"
    ]
  ]
  node [
    id 2
    name "stock"
    label "Stock"
    graphics [
      x 124.5
      y 141
      w 56.0002
      H 108
      type "box"
    ]
    LabelGraphics [
      text "Stock"
    ]
  ]
  node [
    id 3
    name "invoices"
    label "Invoices"
    graphics [
      x 166.5
      y 18
      w 75.0024
      H 36
      type "box"
    ]
    LabelGraphics [
      text "Invoices"
    ]
  ]
  node [
    id 4
    name "audit"
    label "Audit"
    graphics [
      x 236.5
      y 141
      w 55.0001
      H 36
      type "box"
    ]
    LabelGraphics [
      text "Audit"
    ]
  ]
  edge [
    id 1
    source 0
    target 1
    lp ""
    graphics [
      Line [
        point [ x 137.91 y 231.77 ]
        point [ x 122.35 y 221.84 ]
        point [ x 103.15 y 208.65 ]
        point [ x 87.5 y 195 ]
        point [ x 77.804 y 186.54 ]
        point [ x 68.091 y 176.25 ]
        point [ x 59.965 y 166.99 ]
        point [ x 53.272 y 159.19 ]
      ]
    ]
  ]
  edge [
    id 2
    source 0
    target 2
    lp ""
    graphics [
      Line [
        point [ x 159.75 y 231.81 ]
        point [ x 156.76 y 224.2 ]
        point [ x 153.05 y 214.73 ]
        point [ x 149.16 y 204.82 ]
        point [ x 145.4 y 195.24 ]
      ]
    ]
  ]
  edge [
    id 3
    source 0
    target 3
    lp ""
    graphics [
      Line [
        point [ x 166.5 y 231.71 ]
        point [ x 166.5 y 192.07 ]
        point [ x 166.5 y 94.359 ]
        point [ x 166.5 y 46.42 ]
        point [ x 166.5 y 36.174 ]
      ]
    ]
  ]
  edge [
    id 4
    source 0
    target 4
    lp ""
    graphics [
      Line [
        point [ x 180.97 y 231.94 ]
        point [ x 185.49 y 226.35 ]
        point [ x 190.36 y 220.03 ]
        point [ x 194.5 y 214 ]
        point [ x 204.61 y 199.26 ]
        point [ x 214.74 y 181.99 ]
        point [ x 222.52 y 168.05 ]
        point [ x 227.5 y 159.01 ]
      ]
    ]
  ]
  edge [
    id 5
    source 1
    target 3
    lp ""
    graphics [
      Line [
        point [ x 54.117 y 122.79 ]
        point [ x 63.373 y 112.17 ]
        point [ x 75.768 y 98.44 ]
        point [ x 87.5 y 87 ]
        point [ x 103.24 y 71.65 ]
        point [ x 121.84 y 55.553 ]
        point [ x 137.03 y 42.876 ]
        point [ x 145.08 y 36.212 ]
      ]
    ]
  ]
  edge [
    id 6
    source 2
    target 3
    lp ""
    graphics [
      Line [
        point [ x 142.92 y 86.928 ]
        point [ x 147.88 y 72.64 ]
        point [ x 153.03 y 57.792 ]
        point [ x 157.25 y 45.635 ]
        point [ x 160.55 y 36.128 ]
      ]
    ]
  ]
  edge [
    id 7
    source 4
    target 3
    label "yearly"
    lp "226,61.5"
    graphics [
      Line [
        point [ x 229.5 y 122.93 ]
        point [ x 221.89 y 105.14 ]
        point [ x 208.9 y 76.741 ]
        point [ x 194.5 y 54 ]
        point [ x 192.47 y 50.787 ]
        point [ x 190.19 y 47.525 ]
        point [ x 187.83 y 44.35 ]
        point [ x 181.53 y 36.241 ]
      ]
    ]
    LabelGraphics [
      text "yearly"
    ]
  ]
]
