"""The style of the pages of a report: for screens, light and dark, and for paper in black and white."""

from __future__ import annotations

from ..figure import html_form
from .colours import variables

PLAIN = """
body{margin:16px;background:var(--paper);color:var(--ink);font:15px/1.5 "DejaVu Sans",Verdana,Helvetica,Arial,sans-serif}
h1{font-size:1.4em;margin:.3em 0;overflow-wrap:anywhere}h2{font-size:1.15em;margin:1.2em 0 .4em}h3{font-size:1em;margin:.8em 0 .3em}
a{color:var(--strong)}a:focus-visible,[tabindex]:focus-visible,button:focus-visible{outline:3px solid var(--strong);outline-offset:1px}
p,li,.text{overflow-wrap:anywhere}caption{white-space:nowrap}.path,.place,.meaning,.explained,.back,.legend{color:var(--soft);font-size:.9em}.path{margin:0}
pre{margin:.2em 0 .6em;padding:4px 8px;overflow-x:auto;background:var(--odd);border-left:3px solid var(--line);font-size:.85em}
code{background:var(--odd);padding:0 .25em;border-radius:3px;font-size:.93em}
.fault strong,.noted,.clash h3{color:var(--wrong)}section{margin-bottom:1em}button,input{font:inherit}
"""

INDEX = """
.totals{display:flex;flex-wrap:wrap;gap:8px 32px;align-items:flex-start}caption{text-align:left;font-weight:bold;padding:4px 0}
table{border-collapse:collapse}td,th{padding:2px 8px;border-bottom:1px solid var(--line);text-align:left;font-weight:normal;vertical-align:top}
.number{text-align:right;white-space:nowrap;font-variant-numeric:tabular-nums}.count svg{vertical-align:middle}.count rect{fill:var(--strong)}
.wide{overflow:auto}#documents thead th{font-weight:bold;vertical-align:bottom}
#documents tbody th{min-width:14em;overflow-wrap:anywhere}#documents tbody tr:hover{background:var(--odd)}
th button{background:none;border:0;padding:0;color:inherit;text-align:left;cursor:pointer;text-decoration:underline dotted}
thead th button{font-weight:bold}
th[aria-sort=ascending] button::after{content:" \\2191"}th[aria-sort=descending] button::after{content:" \\2193"}
#search{margin:.6em 0;position:sticky;top:0;background:var(--paper);padding:6px 0}#search input{width:min(32em,70%);padding:4px}#search output{white-space:nowrap}
.verdict{display:inline-block;padding-left:1.2em;position:relative}
.verdict::before{content:"";position:absolute;left:0;top:.28em;width:.8em;height:.8em;background:currentColor;print-color-adjust:exact}
.verdict.good{color:var(--good)}.verdict.good::before{border-radius:50%}
.verdict.clash{color:var(--wrong)}.verdict.clash::before{clip-path:polygon(20% 0,50% 30%,80% 0,100% 20%,70% 50%,100% 80%,80% 100%,50% 70%,20% 100%,0 80%,30% 50%,0 20%)}
.verdict.fault{color:var(--wrong)}.verdict.fault::before{clip-path:polygon(50% 0,100% 100%,0 100%)}
.verdict.touch{color:var(--touch)}.verdict.touch::before{clip-path:polygon(0 0,45% 0,45% 100%,0 100%,0 0,55% 0,100% 0,100% 100%,55% 100%,55% 0)}
.verdict.unknown{color:var(--soft)}.verdict.unknown::before{background:none;box-sizing:border-box;border:2px solid}
@media (max-width:40em){body{margin:8px;font-size:13px}td,th{padding:2px 4px}#documents tbody th{min-width:8em;max-width:10em}}
"""

MARKS = """
.reading{display:grid;grid-template-columns:minmax(18em,2fr) minmax(0,3fr);gap:0 24px}.reading>*{min-width:0}
.text{position:relative;white-space:pre-wrap;max-width:48em;line-height:calc(34px + var(--lanes,0)*18px);unicode-bidi:plaintext}
.text{max-height:76vh;overflow:auto}
@media (max-width: 60em){.reading{display:block}}
.mark{color:inherit;text-decoration:none;unicode-bidi:isolate;padding:1px 2px;border-radius:2px}a.mark{cursor:pointer}
.mark.event{border-bottom:2px solid var(--strong)}.mark.time{border:1px solid var(--strong)}.mark.time.free{border-style:dashed}
.mark.signal{border-bottom:2px dotted var(--soft);font-style:italic}.mark .name{color:var(--soft);user-select:none;line-height:0;font-size:.62em;font-style:normal;margin-left:1px}
.mark.on .name,.mark:target .name{color:var(--ink)}.mark.on,.mark:target{background:var(--mark);outline:2px solid var(--ink)}.mark.near{background:var(--near);outline:1px dashed var(--ink)}
li:target{background:var(--near)}li.on{background:var(--near);outline:2px solid var(--ink)}
#panel{position:sticky;bottom:0;max-height:24vh;overflow:auto;background:var(--paper);border-top:2px solid var(--strong);padding:6px 0;font-size:.88em;
columns:26em}#panel div{break-inside:avoid;padding-left:1.4em;text-indent:-1.4em}#panel div:first-child{font-weight:bold}#panel:empty{display:none}
.arcs{position:absolute;left:0;top:0;pointer-events:none;overflow:visible}.arcs path{fill:none;stroke:var(--link);stroke-width:1.5}
.arcs path.head{fill:var(--link)}.arcs text{fill:var(--ink);font-size:11px;text-anchor:middle;paint-order:stroke;stroke:var(--paper);stroke-width:4px}
.arcs path,.arcs text{pointer-events:visiblePainted}.arcs g{transition:opacity .1s}.arcs g.dim{opacity:.18}
.ring{background:white;width:max-content;max-width:100%;border-radius:4px;padding:4px}.ring svg{display:block;width:30em;max-width:100%;height:auto}
.links li,.walk li{margin:.15em 0}.links button,.walk button,.tools button{margin-left:.5em;padding:0 .5em;font-size:.85em}.tools label{margin-right:1em}
.links{max-height:60vh;overflow:auto;padding-left:1em;list-style:none}.called{font-weight:bold}
"""

PICTURE = """
.picture{max-height:60vh;margin-bottom:8px}.rows{max-height:30vh;overflow:auto}
@media (min-width:60em){.leading.event .around{display:none}}
.leading:target,.leading:focus{background:var(--mark)}.leading:is(:focus,:target) :is(.name,.around){color:var(--ink)}
"""

PRINTED = """
@media print{body{margin:0}.text,.picture,.rows,.links,.wide{max-height:none;overflow:visible}#panel,#search,.tools,.back,button{display:none}
.reading{display:block}h1,h2,h3,caption{break-after:avoid}li,tr,pre{break-inside:avoid}thead{display:table-header-group}
.fault,.warning,.legend,.why{break-after:avoid}.ring{break-inside:avoid}}
"""

STYLE = variables() + PLAIN + INDEX + MARKS + html_form.STYLE + PICTURE + PRINTED
"""The whole file."""
