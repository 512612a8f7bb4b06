// Why an operation was refused, in a sentence: the limit that it met, and what still passes.

// `shape` is a tower's, `it` an operation whose answer was `spent stamped` or `spent matrix`
export function refusalReason({ kind, values, side, size, tagged }, it) {
  const who = `p${it.process}'s ${it.name} was refused`;
  if (kind === "stamped") {
    const last = size / values - 1;
    return `${who}: its stamp would be ${last + 1}, and the last one is ${last} (LAST). It `
      + "changed nothing; no further write passes, and reads go on.";
  }
  const lastTag = tagged / (side * values) - 1, lastStamp = size / tagged - 1;
  if (it.refusal === "spent matrix")
    return `${who}: its tag would be ${lastTag + 1}, and the last one is ${lastTag} (TAG). It `
      + "wrote nothing; reads go on while their registers have stamps.";
  return `${who}: a register of its row has taken its last stamp, ${lastStamp} (INNER), so no `
    + `further operation of p${it.process} passes. Reads count too, as each writes its row.`;
}
