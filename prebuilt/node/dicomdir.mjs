#!/usr/bin/env node
// The program dicomdir under Node 18 or later, on any system that has it.
//
//     node dicomdir.mjs COMMAND ..
//
// Its module, dicomdir.wasm, is the one of web/build-module for a host that answers at once.
import { run, wordsGiven } from './program.mjs';

process.exitCode = run(wordsGiven());
