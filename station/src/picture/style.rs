//! How things look. Every difference that a colour makes, a shape or a kind of line makes too.

/// The size of labels.
pub const LABEL: f64 = 13.0;

/// The style sheet of pictures, once in a picture that stands alone and once in a page.
pub const STYLE: &str = "\
.station-picture text{font-family:'Segoe UI',Helvetica,Arial,'Liberation Sans','DejaVu Sans',sans-serif;font-size:13px;fill:#1b2530}\
.station-picture .title{font-size:18px;font-weight:700}\
.station-picture .subtitle{font-size:13px;fill:#46525e}\
.station-picture .number{font-size:15px;font-weight:700;text-anchor:middle}\
.station-picture .casing{fill:none;stroke:#fff;stroke-width:9}\
.station-picture .coupled{stroke:#ffe59b}\
.station-picture .track{fill:none;stroke:#56626e;stroke-width:4;stroke-linejoin:round}\
.station-picture .set{stroke:#1b2530;stroke-width:5}\
.station-picture .unset{stroke:#aab4be;stroke-width:4;stroke-dasharray:2 4}\
.station-picture g:hover>.track{stroke:#0a58b8;stroke-width:7}\
.station-picture .bar{fill:none;stroke:#1b2530;stroke-width:6}\
.station-picture .joint{fill:none;stroke:#1b2530;stroke-width:2}\
.station-picture .arrow{fill:#1b2530;stroke:#fff;stroke-width:1}\
.station-picture .post{fill:none;stroke:#1b2530;stroke-width:1.6}\
.station-picture .proceed{fill:#157a38;stroke:#1b2530;stroke-width:1.2}\
.station-picture .stop{fill:#c21f1f;stroke:#1b2530;stroke-width:1.2}\
.station-picture .open{fill:#fff;stroke:#1b2530;stroke-width:1.2}\
.station-picture .face{fill:#fff;stroke:#fff;stroke-width:1.6}\
.station-picture .halt{stroke-width:2.8}\
.station-picture .ring{fill:none;stroke:#1b2530;stroke-width:1.3;stroke-dasharray:3 2.4}\
.station-picture .ask{font-size:11px;font-weight:700;text-anchor:middle}\
.station-picture .points{fill:#fff;stroke:#1b2530;stroke-width:2}\
.station-picture .label{paint-order:stroke;stroke:#fff;stroke-width:3;stroke-linejoin:round}\
.station-picture .body{fill:#ffd65c;stroke:#5a4300;stroke-width:1.4}\
.station-picture .wheel{fill:#5a4300}\
.station-picture .coupling{fill:none;stroke:#ffe59b;stroke-width:16;stroke-linecap:round}\
.station-picture .link{fill:none;stroke:#5a4300;stroke-width:1.6;stroke-dasharray:1.5 4;stroke-linecap:round}\
.station-picture .name{text-anchor:middle}\
.station-picture .path-a{fill:none;stroke:#0a58b8;stroke-width:3.4;stroke-linejoin:round}\
.station-picture .path-b{fill:none;stroke:#c4480a;stroke-width:3.4;stroke-linejoin:round;stroke-dasharray:8 4.5}\
.station-picture .tip-a{fill:#0a58b8}\
.station-picture .tip-b{fill:#c4480a}\
.station-picture .badge-a{fill:#0a58b8;stroke:#fff;stroke-width:1}\
.station-picture .badge-b{fill:#fff;stroke:#c4480a;stroke-width:2.2}\
.station-picture .on-a{fill:#fff;font-weight:700;text-anchor:middle}\
.station-picture .on-b{fill:#8f3300;font-weight:700;text-anchor:middle}\
.station-picture .meeting{stroke:#7a1a8c;stroke-width:2.6}\
.station-picture .meets{font-size:13px;font-weight:700;fill:#6a1079;text-anchor:middle}\
.station-picture .astray{stroke-width:2.6;stroke-dasharray:1.5 4}\
.station-picture .cross circle{fill:#fff;stroke:#b00020;stroke-width:2}\
.station-picture .cross path{fill:none;stroke:#b00020;stroke-width:2.6}\
.station-picture .lock{fill:none;stroke:#1b2530;stroke-width:1.8}\
.station-picture .locked{fill:#1b2530}\
.station-picture .on{font-size:12px;fill:#46525e}\
.station-picture .rule{stroke:#ccd3da;stroke-width:1}\
";
