// Routes a diagram in Node by the engine in WebAssembly, which tools/build-wasm makes: node route.mjs IN.gml > OUT.gml
import fs from 'node:fs';
import { Reroute, Session } from '../../out/wasm/reroute.mjs';

await Reroute.load();
const session = Session.fromGml(fs.readFileSync(process.argv[2]));
fs.writeSync(1, session.gmlBytes());
session.close();
