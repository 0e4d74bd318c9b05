// Runs the checks and prints a line for each.
const verdicts = (async () => {
  const lines = [];
  for (const [words, test] of checks) {
    try {
      await test();
      lines.push(`ok ${words}`);
    } catch (trouble) {
      lines.push(`wrong ${words}: ${trouble}`);
    }
  }
  return lines.join('\n');
})();
