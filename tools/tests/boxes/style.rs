//! What the picture's style says about a class.

use std::collections::BTreeMap;

/// Properties by selector.
pub struct Style(Vec<(Vec<String>, BTreeMap<String, String>)>);

impl Style {
    pub fn of(svg: &str) -> Style {
        let css = svg.split_once("<style>").unwrap().1.split_once("</style>").unwrap().0;
        let mut rules = Vec::new();
        for rule in css.split('}') {
            let Some((selectors, properties)) = rule.split_once('{') else { continue };
            let properties: BTreeMap<String, String> =
                properties.split(';').filter_map(|p| p.split_once(':')).map(property).collect();
            for selector in selectors.split(',').map(str::trim).filter(|s| s.starts_with('.')) {
                let classes = selector[1..].split('.').map(str::to_string).collect();
                rules.push((classes, properties.clone()));
            }
        }
        rules.sort_by_key(|(classes, _): &(Vec<String>, _)| classes.len());
        Style(rules)
    }

    /// Returns a property of a class, or the default for all texts and lines.
    pub fn value(&self, class: &str, name: &str) -> &str {
        let classes: Vec<&str> = class.split(' ').collect();
        let fits = |selector: &[String]| selector.iter().all(|one| classes.contains(&one.as_str()));
        let rules = self.0.iter().rev().filter(|(selector, _)| fits(selector));
        let found = rules.filter_map(|(_, properties)| properties.get(name)).next();
        let otherwise = match name {
            "font-size" => "9",
            "stroke-width" => "1",
            _ => "start",
        };
        found.map_or(otherwise, String::as_str)
    }
}

fn property((name, value): (&str, &str)) -> (String, String) {
    (name.trim().to_string(), value.trim().trim_end_matches("px").to_string())
}
