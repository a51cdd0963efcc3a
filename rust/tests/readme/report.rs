fn week() -> Answer<Report> {
    let mut report = Report::new(|k| 100 * k as u64, &[(4, EvictionPolicy::Refresh)])?;
    let path = report.insert(&[11, 12, 13, 14, 15])?;
    let span = Span {
        node: path.segs[0].node,
        start: 0,
        end: path.segs[0].len,
    };
    report.store_insert(0, span, Some(7), 10.0)?;
    report.lookup(&[0], &[11, 12, 13])?;
    Ok(report)
}
