//! A contact sheet of disks as an HTML page, in plain Rust.
use super::checking::check;
use super::pictures::{Drawing, Html, Owner, Signs, on_track, unpadded};
use super::places::*;
use std::io::{self, Write};

const STYLE: &str = ":root{color-scheme:light dark}body{margin:24px;background:#fbfaf7;color:#222;font:12px/1.4 ui-monospace,Menlo,Consolas,\"DejaVu Sans Mono\",monospace}h1{font-size:20px;margin:0 0 12px}main{display:grid;gap:16px;grid-template-columns:repeat(auto-fill,minmax(148px,1fr))}figure{margin:0;break-inside:avoid;overflow-wrap:anywhere}svg{display:block;width:100%;height:auto}code,span{display:block;font:inherit}code{margin:4px 0 0}figure:not(:has(svg))::before{content:\"\";display:block;aspect-ratio:37/23;box-sizing:border-box;border:1px dashed}bdi:not(:empty){margin-left:1ch}.bad b{color:#b00000}.good b{color:#17692b}ul{list-style:none;padding:0;margin:16px 0 0}li svg{display:inline-block;width:12px;height:12px;margin:0 6px 0 0;vertical-align:-2px}path{fill:none;stroke-width:.8}.p0{stroke:#d40000}.p1{stroke:#161616}.p2{stroke:#5e5e5e}.p3{stroke:#e8e4d9}.p4{stroke:#9898aa}.p5{stroke:#8c8259}.p6{stroke:#1c9182}.p7{stroke:#4b75ff}.p8{stroke:#e320ba}.p9{stroke:#406c83}.p10{stroke:#716046}.p11{stroke:#3a4353}.p12{stroke:#4a3934}.p13{stroke:#0c0bca}.p14{stroke:#5d0476}.p15{stroke:#630a00}.p16{stroke:#041c33}.p17{stroke:#4d4831}.p18{stroke:#0f5048}.p19{stroke:#29408c}.p20{stroke:#7d1266}.p21{stroke:#233b48}.p22{stroke:#3e3526}.p23{stroke:#20252e}.p24{stroke:#291f1d}.p25{stroke:#07066f}.p26{stroke:#330241}.p27{stroke:#360600}.p28{stroke:#020f1c}@media(max-width:900px){body{margin:12px}}@media screen and (prefers-color-scheme:dark){body{background:#15171b;color:#e6e6e6}.bad b{color:#ff7a70}.good b{color:#6fd08c}.p0{stroke:#ff4a3d}.p1{stroke:#fff}.p2{stroke:#9aa0aa}.p3{stroke:#2a2d34}.p4{stroke:#a29c93}.p5{stroke:#627c6e}.p6{stroke:#85748f}.p7{stroke:#aa46f5}.p8{stroke:#2fa067}.p9{stroke:#7b92c5}.p10{stroke:#2fcd81}.p11{stroke:#96baff}.p12{stroke:#d2bf02}.p13{stroke:#c9c5be}.p14{stroke:#c4d2e6}.p15{stroke:#a5fdbe}.p16{stroke:#fff700}.p17{stroke:#b0beb6}.p18{stroke:#c2bac7}.p19{stroke:#d4a2fa}.p20{stroke:#97d0b3}.p21{stroke:#bdc8e2}.p22{stroke:#97e6c0}.p23{stroke:#cadcff}.p24{stroke:#e8df80}.p25{stroke:#e4e2de}.p26{stroke:#e2e8f2}.p27{stroke:#d2fede}.p28{stroke:#fffb80}}@page{size:A4;margin:10mm}@media print{*{print-color-adjust:exact;-webkit-print-color-adjust:exact}body{margin:0;font-size:9px}main{grid-template-columns:repeat(6,1fr);gap:3mm}}";
const END: &str = "</main>\n<ul>\n<li><svg viewBox=\"0 0 1 1\" aria-hidden=\"true\"><path class=\"p1\" d=\"M0 .5h1\"/></svg>map of free sectors</li>\n<li><svg viewBox=\"0 0 1 1\" aria-hidden=\"true\"><path class=\"p2\" d=\"M0 .5h1\"/></svg>directory</li>\n<li><svg viewBox=\"0 0 1 1\" aria-hidden=\"true\"><path class=\"p3\" d=\"M0 .5h1\"/></svg>free</li>\n<li><svg viewBox=\"0 0 1 1\" aria-hidden=\"true\"><path class=\"p4\" d=\"M0 .5h1\"/></svg>taken in the map, in no file</li>\n<li><svg viewBox=\"0 0 1 1\" aria-hidden=\"true\"><path class=\"p5\" d=\"M0 .5h1\"/></svg>a file, in one of twelve colours</li>\n<li><svg viewBox=\"0 0 1 1\" aria-hidden=\"true\"><path class=\"p17\" d=\"M0 .5h1\"/></svg>its side sectors, in another shade</li>\n<li><svg viewBox=\"0 0 1 1\" aria-hidden=\"true\"><path class=\"p0\" d=\"M0 .5h1\"/></svg>the fault</li>\n</ul>\n<p>Tracks 1 to 35 stand from left to right, sector 0 at the top. Blocks are free as the map counts them.</p>\n";
const SHADES: usize = 29;

/// The beginning of a sheet of so many disks.
pub fn sheet_begin(count: usize, out: &mut impl Write) -> io::Result<()> {
    write!(out, "<!DOCTYPE html>\n<html lang=\"en\">\n<meta charset=\"utf-8\">\n")?;
    write!(out, "<meta name=\"viewport\" content=\"width=device-width,initial-scale=1\">\n<title>Disks: {count}</title>\n")?;
    write!(out, "<style>{STYLE}</style>\n<h1>Disks: {count}</h1>\n<main>\n")
}

/// The shade of a sector that has no fault.
fn shade(drawing: &Drawing, place: Place) -> usize {
    match drawing.owners[place.index()] {
        Owner::System if place == MAP => 1,
        Owner::System => 2,
        Owner::Blocks(number) => 5 + number % 12,
        Owner::Sides(number) => 17 + number % 12,
        Owner::Nobody if drawing.is_free(place) => 3,
        Owner::Nobody => 4,
    }
}

/// The tile of a disk that has a directory; gives its exit status.
pub fn sheet_tile(sectors: &[Sector], path: &str, out: &mut impl Write) -> io::Result<u8> {
    let found = check(sectors);
    let drawing = Drawing::read(sectors).expect("a directory");
    let fault = found.as_ref().err().map(|fault| fault.place());
    let mut strokes = vec![Vec::new(); SHADES];
    for place in (1..=35).flat_map(on_track) {
        let at = if Some(place) == fault { 0 } else { shade(&drawing, place) };
        strokes[at].push(place);
    }
    let (class, verdict) = match &found {
        Ok(()) => ("good", String::from("OK")),
        Err(fault) => ("bad", fault.to_string()),
    };
    write!(out, "<figure class=\"{class}\"><svg viewBox=\"0 -1 37 23\" aria-hidden=\"true\">")?;
    for (number, places) in strokes.iter().enumerate() {
        write!(out, "<path class=\"p{number}\" d=\"")?;
        for place in places {
            write!(out, "M{} {}h.8", place.track, place.sector)?;
        }
        write!(out, "\"/>")?;
    }
    let name = unpadded(&drawing.map[0x90..0xA0]);
    let free = drawing.blocks_free();
    write!(out, "</svg><figcaption><code>{}</code> <span>{}<bdi>{}</bdi></span> ", Html(path.as_bytes()), Html(name), Signs(name))?;
    writeln!(out, "<b>{verdict}</b> <span>{free} blocks free</span></figcaption></figure>")?;
    Ok(u8::from(found.is_err()))
}

/// The end of a sheet.
pub fn sheet_end(out: &mut impl Write) -> io::Result<()> {
    out.write_all(END.as_bytes())?;
    out.flush()
}
