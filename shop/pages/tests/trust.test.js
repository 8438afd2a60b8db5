// The fingerprint of an authority, by node's test runner: node --test shop/pages/tests/

import assert from "node:assert/strict";
import { X509Certificate } from "node:crypto";
import { test } from "node:test";
import { bytesOf, printOf } from "../till/trust.js";

// made by openssl: a key of the curve P-256, CN=trial
const PEM = `-----BEGIN CERTIFICATE-----
MIIBdjCCAR2gAwIBAgIUSPPKrjXh27p1aohPMIvqmJx8VjAwCgYIKoZIzj0EAwIw
EDEOMAwGA1UEAwwFdHJpYWwwIBcNMjYxMTMwMTM1MDQ0WhgPMjEyNjExMDYxMzUw
NDRaMBAxDjAMBgNVBAMMBXRyaWFsMFkwEwYHKoZIzj0CAQYIKoZIzj0DAQcDQgAE
f5As3NB6YYf3QX3hsfFOQM/HR8ZHAn/L46D8XrpJPx7ZihIvLtYQLYS519pmAN8n
Z6HkluwNh2Ot9UyWDKCfa6NTMFEwHQYDVR0OBBYEFO3DNMv+FCSaGpT6qf+C//lw
IAsPMB8GA1UdIwQYMBaAFO3DNMv+FCSaGpT6qf+C//lwIAsPMA8GA1UdEwEB/wQF
MAMBAf8wCgYIKoZIzj0EAwIDRwAwRAIgPc8uONkKbo0P7V350rTCG/kqWWs0WYky
a/x4EE4bO2QCIAVohbzCchpwDModgDogbwCGP+Hq3+RO8SrtSf3cnB+J
-----END CERTIFICATE-----
`;

test("a fingerprint is what other programs print", async () => {
  assert.equal(await printOf(PEM), new X509Certificate(PEM).fingerprint256);
  assert.equal(await printOf(`\n${PEM.replaceAll("\n", "\r\n")}`), new X509Certificate(PEM).fingerprint256);
});

test("what is no certificate has none", () => {
  for (const text of ["", "<!doctype html>", "-----BEGIN CERTIFICATE-----"]) assert.throws(() => bytesOf(text), /no certificate/);
});
