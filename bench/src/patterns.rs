//! Lists as text: in a line `{a|b}` stands for each of several words and `{m..n}` for each number from the one to the
//! other; a line `name = a|b` says what the word `name` in braces stands for. Lines that begin with `#` say nothing.

/// What a word in braces stands for.
type Lists<'a> = Vec<(&'a str, &'a str)>;

/// All lines of a text, each expanded, in their order.
pub fn items(text: &str) -> Vec<String> {
    blocks(text).concat()
}

/// The same in blocks, between which there are empty lines.
pub fn blocks(text: &str) -> Vec<Vec<String>> {
    let lists = text.lines().filter_map(|line| line.split_once(" = "));
    let lists: Lists = lists.collect();
    let is_said = |line: &&str| !line.starts_with('#') && !line.contains(" = ");
    let blocks = text.split("\n\n").map(|block| {
        let lines = block.lines().filter(is_said);
        lines.flat_map(|line| expanded(line, &lists)).collect()
    });
    blocks.collect()
}

fn expanded(line: &str, lists: &Lists) -> Vec<String> {
    let Some((before, rest)) = line.split_once('{') else {
        return vec![line.to_owned()];
    };
    let (words, after) = rest.split_once('}').expect("a brace has its end");
    let words = words.split('|').flat_map(|word| each(word, lists));
    let ends = expanded(after, lists);
    let lines = words.flat_map(|word| {
        let ends = ends.iter();
        ends.map(move |end| format!("{before}{word}{end}"))
    });
    lines.collect()
}

/// The words that one word stands for.
fn each(word: &str, lists: &Lists) -> Vec<String> {
    if let Some((first, last)) = word.split_once("..") {
        let number = |word: &str| -> u32 { word.parse().expect("a range is of numbers") };
        let numbers = number(first)..=number(last);
        return numbers.map(|number| number.to_string()).collect();
    }
    let list = lists.iter().find(|(name, _)| *name == word);
    let words = list.map_or(word, |(_, words)| words);
    words.split('|').map(str::to_owned).collect()
}

#[test]
fn words_numbers_and_lists_are_expanded() {
    let text = "# none\nfew = x|y\n\n{a|few} of {8..10}\nall";
    let first = "a of 8,a of 9,a of 10,x of 8,x of 9,x of 10,y of 8,y of 9,y of 10,all";
    assert_eq!(items(text).join(","), first);
    assert_eq!(blocks("a {b|c}\n\nd"), [vec!["a b", "a c"], vec!["d"]]);
}
