"""How the pages look, on a screen and on A4: large, and legible in black and white."""

STYLE = """
@page { size: A4 portrait; margin: 14mm; }
@page drawing { size: A4 landscape; margin: 10mm; }
* { box-sizing: border-box; }
body { margin: 0 auto; padding: 1rem; max-width: 67rem; color: #000; background: #fff; font: 1.25rem/1.4 Arial, Helvetica, "Liberation Sans", sans-serif; }
h1 { font-size: 2.2rem; line-height: 1.15; margin: 0 0 .3rem; }
h2 { font-size: 1.6rem; line-height: 1.2; margin: 2rem 0 .4rem; }
h3 { font-size: 1.35rem; line-height: 1.25; margin: 0; }
p { margin: .3rem 0; }
a { color: #000; }
b, .time { font-weight: bold; }
.time { white-space: nowrap; font-variant-numeric: tabular-nums; }
h1, h2, h3, p, li { overflow-wrap: anywhere; }
.arrivals { display: flex; flex-wrap: wrap; gap: 1rem; margin: 1rem 0; padding: 0; list-style: none; }
.arrivals li { flex: 1 1 14rem; border: 2px solid #000; padding: .5rem .9rem; }
.arrivals .time { display: block; font-size: 2.4rem; line-height: 1.15; }
.first { border: 5px solid #000; padding: .7rem .9rem; margin: 1rem 0; font-size: 1.5rem; line-height: 1.3; break-inside: avoid; }
.landing { border-top: 3px solid #000; margin: 1.2rem 0 0; padding: .5rem 0 .2rem 3.4rem; position: relative; break-inside: avoid; }
.number { position: absolute; left: 0; top: .55rem; min-width: 2.5rem; padding: 0 .3rem; border: 3px solid #000; font-size: 1.5rem; line-height: 2.1rem; font-weight: bold; text-align: center; }
.long { break-inside: auto; }
.off { margin: .1rem 0 .4rem; }
.choices { margin: 0; padding: 0; list-style: none; }
.choices li { display: grid; grid-template: auto 1fr / 13rem 1fr 12rem; gap: 0 1rem; border-top: 1px solid #000; padding: .35rem 0; break-inside: avoid; }
.take { font-size: 1.35rem; line-height: 1.25; }
.when { grid-row: 1 / span 2; }
.due { grid-column: 2; }
.then { grid-column: 3; grid-row: 1 / span 2; text-align: right; }
.then .time { font-size: 1.35rem; }
.go, .expected { white-space: nowrap; }
.box { display: inline-block; border: 2px solid #000; padding: 0 .35em; font-weight: bold; line-height: 1.25; }
.promise { border: 2px solid #000; padding: .6rem .9rem; margin: 1.5rem 0; break-inside: avoid; }
.scroll { overflow-x: auto; }
svg { display: block; font-family: Arial, Helvetica, "Liberation Sans", sans-serif; }
.queries { margin: 1rem 0; padding: 0; list-style: none; }
.queries h2 { margin: 0; }
.hint { display: none; }
.queries li { border-top: 3px solid #000; padding: .7rem 0; break-inside: avoid; }
.words { white-space: pre-wrap; overflow-wrap: anywhere; border-left: 5px solid #000; padding-left: .9rem; }
@media screen and (max-width: 48rem) {
  body { font-size: 1.15rem; padding: .7rem; }
  h1 { font-size: 1.8rem; }
  .landing { padding-left: 0; }
  .number { position: static; display: inline-block; margin-bottom: .2rem; }
  .hint { display: block; }
  .choices li { display: block; }
  .choices li span.when, .choices li span.take, .choices li span.due, .choices li span.then { display: block; text-align: left; }
}
@media print {
  body { max-width: none; padding: 0; font-size: 13.5pt; }
  p { widows: 2; orphans: 2; }
  h1 { font-size: 26pt; } h2 { font-size: 19pt; break-after: avoid; } h3 { font-size: 16pt; break-after: avoid; }
  .choices li { grid-template-columns: 7.5rem 1fr 10.5rem; }
  .first { font-size: 17pt; } .take, .then .time { font-size: 15pt; }
  .drawing { page: drawing; break-inside: avoid; }
  .drawing h2 { margin: 0 0 .2rem; font-size: 16pt; }
  .key { font-size: 11pt; margin: 0; }
  .scroll { overflow: visible; }
  svg { width: 100%; height: auto; }
  a { text-decoration: none; }
}
"""
