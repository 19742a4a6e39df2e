// The module that the tests load: what EDGEBPF_MODULE names, or else the one of docs/playground.html.
import { readFile } from "node:fs/promises";
import { unpacked } from "../host.js";

export const checkout = new URL("../../../", import.meta.url);

export async function moduleBytes() {
  if (process.env.EDGEBPF_MODULE) return readFile(process.env.EDGEBPF_MODULE);
  const page = await readFile(new URL("docs/playground.html", checkout), "utf8");
  return unpacked(page.match(/<script type="text\/plain" id="module">(.*?)<\/script>/s)[1]);
}
