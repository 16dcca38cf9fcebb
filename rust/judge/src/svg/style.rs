//! The picture's style sheet.

/// Colours that colour-blind people can tell apart (Okabe and Ito), and that differ in darkness.
/// What they tell is told by shape, place or words as well.
pub const STYLE: &str = "\
text{font-family:system-ui,-apple-system,'Segoe UI',Roboto,'Helvetica Neue',Arial,'DejaVu Sans',\
sans-serif;font-size:12px;fill:#333}
.title{font-size:18px;font-weight:600;fill:#111}
.answer{font-family:ui-monospace,Menlo,Consolas,'DejaVu Sans Mono',monospace;\
font-size:17px;font-weight:700}
.answer.clean{fill:#00694d}
.answer.bad{fill:#b34700}
.say{font-size:13px}
.head{font-weight:600;fill:#111;text-anchor:middle}
.mid{text-anchor:middle}
.end{text-anchor:end}
.tiny{font-size:11px;fill:#666}
.soft{fill:#767676}
.hot{fill:#b34700;font-weight:700}
.bold{font-weight:700;fill:#111}
.band-hot{fill:#fce6d8}
.band-note{fill:#eef2f6}
.band-gap{fill:#f4f4f4}
.rule{stroke:#ededed;stroke-width:1}
.leader{stroke:#999;stroke-width:1;stroke-dasharray:1 4}
.line{fill:none;stroke-linejoin:round}
.life{stroke-width:2}
.wait{stroke-width:1.6;stroke-dasharray:1.5 3.5;stroke-linecap:round}
.cut{stroke-width:2;stroke-dasharray:2 5}
.line.pale{stroke:#d4d4d4}
.line.plain{stroke:#555}
.line.to-s{stroke:#0072b2;stroke-width:4.5}
.line.to-t{stroke:#e69f00;stroke-width:4.5}
.line.onward{stroke:#c44f00;stroke-width:2.5}
.wait.to-s,.wait.to-t,.wait.onward{stroke-dasharray:none}
.full.pale{fill:#c8c8c8}
.full.plain{fill:#333}
.full.to-s{fill:#0072b2}
.full.to-t{fill:#b87f00}
.hollow{fill:#fff;stroke-width:2}
.bar{stroke-width:3.5}
.hollow.pale,.bar.pale{stroke:#c8c8c8}
.hollow.plain,.bar.plain{stroke:#333}
.hollow.to-s,.bar.to-s{stroke:#0072b2}
.hollow.to-t,.bar.to-t{stroke:#b87f00}
.sum{fill:#009e73;stroke-width:2}
.sum.pale{fill:#b5ddd0}
.sum.to-s{stroke:#0072b2}
.sum.to-t{stroke:#b87f00}
.plus{fill:none;stroke:#fff;stroke-width:1.8}
text.pale{fill:#9b9b9b}
text.to-s{fill:#005a8c}
text.to-t{fill:#7d5600}
.strip.series{fill:#e4e4e4}
.strip.parallel{fill:#cfe3f0}
.strip.to-s{fill:#8fc3e3}
.strip.to-t{fill:#f2c76e}
.ring{fill:#fff;stroke:#c44f00;stroke-width:3}
.missing{fill:none;stroke:#c44f00;stroke-width:2.5;stroke-dasharray:7 5}
.cross{fill:none;stroke:#c44f00;stroke-width:3;stroke-linecap:round}
.bracket{fill:none;stroke:#c44f00;stroke-width:2.5}
.plate{fill:#fff;stroke:#c44f00;stroke-width:1.5}
.diamond{fill:#111}
";
