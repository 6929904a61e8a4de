//! AUT texts to read.

use crate::random::Random;

/// Where the names of a text differ: comparing them is more or less work by it.
#[derive(Clone, Copy)]
pub enum Differ {
    Front,
    Middle,
    End,
}

fn name(number: usize, differ: Differ) -> String {
    match differ {
        Differ::Front => format!("a{number:02}retry_counter"),
        Differ::Middle => format!("retry_{number:02}_counter"),
        Differ::End => format!("retry_counter_{number:02}"),
    }
}

/// A text of 65,536 transitions, the same number from each state, in a random order. The names have 16 bytes.
pub fn text(states: usize, names: usize, differ: Differ, spaced: bool) -> Vec<u8> {
    const LINES: usize = 65_536;
    let mut random = Random::new(7);
    let mut sources: Vec<usize> = (0..LINES).map(|i| i % states).collect();
    for i in (1..LINES).rev() {
        sources.swap(i, random.below(i + 1));
    }
    let gap = if spaced { " " } else { "" };
    let mut text = format!("des (0,{gap}{LINES},{gap}{states})\n");
    for from in sources {
        let name = name(random.below(names), differ);
        let to = random.below(states);
        text += &format!("({from},{gap}\"{name}\",{gap}{to})\n");
    }
    text.into_bytes()
}

/// Texts that are refused, one for each rule of the reader, and small ones that are read.
pub fn edges() -> Vec<(String, usize, usize)> {
    let mut texts: Vec<(String, usize, usize)> = [
        "",
        "des (0,0,1)",
        "des (0,0,1)\n",
        "des (0,0,1)\n\n",
        "des (0,0,0)\n",
        "des (1,0,1)\n",
        "des (00,0,1)\n",
        "des(0,0,1)\n",
        "des (0, 0, 1)\n",
        "des (0,  0,1)\n",
        "des ( 0,0,1)\n",
        "des (0,1,2)\n(0,\"a\",1)\n",
        "des (0,1,2)\n(0, \"a\", 1)\n",
        "des (0,1,2)\n(0,\"\",1)\n",
        "des (0,1,2)\n(0,\"1a\",1)\n",
        "des (0,1,2)\n(0,\"a_1\",1)\n",
        "des (0,1,2)\n(0,\"A\",1)\n",
        "des (0,1,2)\n(0,\"abcdefghijklmnop\",1)\n",
        "des (0,1,2)\n(0,\"abcdefghijklmnopq\",1)\n",
        "des (0,1,2)\n(0,\"a\",2)\n",
        "des (0,1,2)\n(2,\"a\",0)\n",
        "des (0,1,2)\n(2,\"a\",0)x\n",
        "des (0,1,2)\n",
        "des (0,1,2)\n(0,\"a\",1)\n(0,\"a\",1)\n",
        "des (0,1,2)\n(,\"a\",1)\n",
        "des (0,1,2)\n(0,\"a\",)\n",
        "des (0,1,2)\n(0,\"a\",01)\n",
        "des (0,1,2)\n(0,\"a\",000001)\n",
        "des (0,1,99999)\n(0,\"a\",1)\n",
        "des (0,1,100000)\n(0,\"a\",1)\n",
        "des (0,65537,2)\n(0,\"a\",1)\n",
        "des (0,3,2)\n(0,\"a\",1)\n(0,\"tau\",0)\n(1,\"b\",1)\n",
        "des (0,3,2)\n(0,\"a\",1)\n(0,\"b\",0)\n(0,\"a\",1)\n",
        "des (0,3,2)\n(0,\"a\",1)\n(0,\"b\",0)\n(0,\"a\",2)\n",
        "des (0,3,2)\n(0,\"a\",1)\n(0,\"b\",0)\n(0,\"a\",1)",
    ]
    .iter()
    .flat_map(|text| [(text.to_string(), 2, 6), (text.to_string(), 2, 3), (text.to_string(), 0, 6), (text.to_string(), 65, 6)])
    .collect();
    for names in [63, 64] {
        let lines: String = (0..names).map(|i| format!("(0,\"n{i}\",0)\n")).collect();
        texts.push((format!("des (0,{names},1)\n{lines}"), 64, 64));
    }
    texts.push((" ".repeat(2_500_000), 1, 1));
    texts.push((" ".repeat(2_500_001), 1, 1));
    texts
}
