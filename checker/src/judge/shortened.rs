//! A list on which something is found, made short, so that what is shown of it can be read.

/// Leaves out ever smaller pieces of a list, as long as it is still found in what is left.
pub fn shortened<Item: Clone>(
    mut items: Vec<Item>,
    is_found: impl Fn(&[Item]) -> bool,
) -> Vec<Item> {
    let mut size = items.len().next_power_of_two();
    while size > 0 {
        items = without_pieces(items, size, &is_found);
        size /= 2;
    }
    items
}

/// Without the pieces of one size that can be left out.
fn without_pieces<Item: Clone>(
    mut items: Vec<Item>,
    size: usize,
    is_found: impl Fn(&[Item]) -> bool,
) -> Vec<Item> {
    let mut start = 0;
    while start < items.len() {
        let end = (start + size).min(items.len());
        let without = [&items[..start], &items[end..]].concat();
        if is_found(&without) {
            items = without;
        } else {
            start = end;
        }
    }
    items
}

#[cfg(test)]
mod tests {
    use super::*;

    #[test]
    fn what_is_needed_is_left() {
        let all: Vec<u32> = (0..100).collect();
        let needs = |list: &[u32]| [17, 18, 60].iter().all(|item| list.contains(item));
        assert_eq!(shortened(all.clone(), needs), [17, 18, 60]);
        assert_eq!(shortened(all.clone(), |list| list.len() > 6).len(), 7);
        assert_eq!(shortened(all.clone(), |list| list == all), all);
        assert!(shortened(all, |_| true).is_empty());
    }
}
