Creator	"yFiles"
Version	"2.20"
graph
[
	hierarchic	1
	label	""
	directed	1
	node
	[
		id	0
		label	"Orders"
		graphics
		[
			x	80.0
			y	40.0
			w	90.0
			h	48.0
			type	"rectangle"
			raisedBorder	0
			fill	"#FFCC00"
			outline	"#000000"
		]
		LabelGraphics
		[
			text	"Orders"
			fontSize	12
			fontName	"Dialog"
			anchor	"c"
		]
		gid	3
	]
	node
	[
		id	1
		label	"Stock
and store"
		graphics
		[
			x	280.0
			y	40.0
			w	90.0
			h	48.0
			type	"rectangle"
			raisedBorder	0
			fill	"#FFCC00"
			outline	"#000000"
		]
		LabelGraphics
		[
			text	"Stock
and store"
			fontSize	12
			fontName	"Dialog"
			anchor	"c"
		]
	]
	node
	[
		id	2
		label	"Invoices"
		graphics
		[
			x	80.0
			y	1.4E2
			w	90.0
			h	48.0
			type	"roundrectangle"
			raisedBorder	0
			fill	"#FFCC00"
			outline	"#000000"
		]
		LabelGraphics
		[
			text	"Invoices"
			fontSize	12
			fontName	"Dialog"
			anchor	"c"
		]
		gid	3
	]
	node
	[
		id	3
		label	"Office"
		graphics
		[
			x	80.0
			y	83.0
			w	130.0
			h	192.0
			type	"roundrectangle"
			raisedBorder	0
			fill	"#F5F5F5"
			outline	"#000000"
			outlineStyle	"dashed"
			topBorderInset	0.0
			bottomBorderInset	0.0
			leftBorderInset	0.0
			rightBorderInset	0.0
		]
		LabelGraphics
		[
			text	"Office"
			fill	"#EBEBEB"
			fontSize	15
			fontName	"Dialog"
			alignment	"right"
			autoSizePolicy	"node_width"
			anchor	"t"
			borderDistance	0.0
		]
		isGroup	1
	]
	edge
	[
		source	0
		target	1
		graphics
		[
			fill	"#000000"
			targetArrow	"standard"
		]
		edgeAnchor
		[
			xSource	1.0
			xTarget	-1.0
		]
	]
	edge
	[
		source	0
		target	1
		label	"again"
		graphics
		[
			fill	"#000000"
			targetArrow	"standard"
			Line
			[
				point
				[
					x	80.0
					y	40.0
				]
				point
				[
					x	180.0
					y	-10.0
				]
				point
				[
					x	280.0
					y	40.0
				]
			]
		]
	]
	edge
	[
		source	2
		target	1
		graphics
		[
			fill	"#000000"
			targetArrow	"standard"
		]
	]
]
